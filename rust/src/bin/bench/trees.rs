//! The trees that are walked and checked. All but `properties` pass the check.

pub struct Blocks {
    pub structure: Vec<u8>,
    pub strings: Vec<u8>,
}

/// A property's name and the length of its value.
type Property = (&'static str, usize);

/// Names as they stand in real trees, 3 to 22 bytes.
const NAMES: [&str; 16] = [
    "reg",
    "status",
    "compatible",
    "device_type",
    "ibm,my-drc-index",
    "ibm,associativity",
    "#address-cells",
    "#size-cells",
    "interrupts",
    "ibm,loc-code",
    "ibm,dma-window",
    "clock-frequency",
    "timebase-frequency",
    "ibm,interrupt-server#s",
    "d-cache-line-size",
    "ibm,pa-features",
];

/// The properties of a memory block, a processor, a PCI device and a host bridge, as a running
/// machine gives them; of the bridge all but the five long arrays.
const MEMORY: [Property; 3] = [("ibm,associativity", 20), ("reg", 16), ("device_type", 7)];
const PROCESSOR: [Property; 28] = [
    ("name", 17),
    ("ibm,ppc-interrupt-gserver#s", 8),
    ("ibm,ppc-interrupt-server#s", 4),
    ("ibm,pft-size", 8),
    ("ibm,chip-id", 4),
    ("ibm,pa-features", 26),
    ("ibm,segment-page-sizes", 40),
    ("ibm,dfp", 4),
    ("ibm,vmx", 4),
    ("ibm,processor-segment-sizes", 16),
    ("ibm,spurr", 4),
    ("ibm,purr", 4),
    ("64-bit", 0),
    ("status", 5),
    ("ibm,slb-size", 4),
    ("slb-size", 4),
    ("clock-frequency", 4),
    ("timebase-frequency", 4),
    ("i-cache-size", 4),
    ("d-cache-size", 4),
    ("i-cache-line-size", 4),
    ("i-cache-block-size", 4),
    ("d-cache-line-size", 4),
    ("d-cache-block-size", 4),
    ("cpu-version", 4),
    ("device_type", 4),
    ("reg", 4),
    ("ibm,my-drc-index", 4),
];
const DEVICE: [Property; 15] = [
    ("max-latency", 4),
    ("min-grant", 4),
    ("reg", 80),
    ("ibm,req#msi-x", 4),
    ("ibm,my-drc-index", 4),
    ("ibm,loc-code", 33),
    ("devsel-speed", 4),
    ("cache-line-size", 4),
    ("subsystem-vendor-id", 4),
    ("subsystem-id", 4),
    ("interrupts", 4),
    ("class-code", 4),
    ("revision-id", 4),
    ("device-id", 4),
    ("vendor-id", 4),
];
const BRIDGE: [Property; 20] = [
    ("name", 4),
    ("#size-cells", 4),
    ("#address-cells", 4),
    ("qemu,phb-enumerated", 4),
    ("ibm,my-drc-index", 4),
    ("ibm,dma-window", 20),
    ("ibm,#dma-size-cells", 4),
    ("ibm,#dma-address-cells", 4),
    ("interrupt-map-mask", 16),
    ("ibm,ddw-extensions", 12),
    ("ibm,ddw-applicable", 12),
    ("ibm,pe-total-#msi", 4),
    ("ibm,pci-config-space-type", 4),
    ("reg", 16),
    ("ranges", 84),
    ("bus-range", 8),
    ("used-by-rtas", 0),
    ("#interrupt-cells", 4),
    ("compatible", 16),
    ("device_type", 4),
];
const CELLS: [Property; 3] = [("#address-cells", 4), ("#size-cells", 4), ("compatible", 12)];

impl Blocks {
    fn new() -> Blocks {
        Blocks { structure: Vec::new(), strings: Vec::new() }
    }

    pub fn lent(&self) -> (&[u8], &[u8]) {
        (&self.structure, &self.strings)
    }

    fn put_word(&mut self, word: u32) {
        self.structure.extend(word.to_be_bytes());
    }

    fn pad(&mut self) {
        self.structure.resize(self.structure.len().next_multiple_of(4), 0);
    }

    fn begin(&mut self, name: &str) {
        self.put_word(1);
        self.structure.extend(name.as_bytes());
        self.structure.push(0);
        self.pad();
    }

    /// A property whose name stands at an offset.
    fn property_at(&mut self, offset: usize, value: &[u8]) {
        self.put_word(3);
        self.put_word(value.len() as u32);
        self.put_word(offset as u32);
        self.structure.extend(value);
        self.pad();
    }

    /// A property of any value.
    fn property(&mut self, name: &str, length: usize) {
        self.property_of(name, &vec![0xA5; length]);
    }

    /// A property whose name stands where it stood before, or at the end of the strings.
    fn property_of(&mut self, name: &str, value: &[u8]) {
        let name = format!("\0{name}\0");
        let strings = [b"\0", &self.strings[..]].concat();
        let found = strings.windows(name.len()).position(|w| w == name.as_bytes());
        let offset = found.unwrap_or(self.strings.len());
        if found.is_none() {
            self.strings.extend(&name.as_bytes()[1..]);
        }
        self.property_at(offset, value);
    }

    fn end(&mut self) {
        self.put_word(2);
    }

    /// A begin-node and the properties behind it.
    fn open(&mut self, name: &str, properties: &[Property]) {
        self.begin(name);
        properties.iter().for_each(|&(name, length)| self.property(name, length));
    }

    /// A node without children.
    fn leaf(&mut self, name: &str, properties: &[Property]) {
        self.open(name, properties);
        self.end();
    }

    fn finish(mut self) -> Blocks {
        self.end();
        self.put_word(9);
        assert!(self.structure.len() <= 32_768 && self.strings.len() <= 4_096);
        self
    }
}

/// One node with this many properties of 8 bytes, of 16 names in turn. It is walked; the check
/// refuses it for its equal names.
pub fn properties(count: usize) -> Blocks {
    let mut blocks = Blocks::new();
    blocks.begin("memory@1");
    for name in NAMES.iter().cycle().take(count) {
        blocks.property(name, 8);
    }
    blocks.finish()
}

/// How many nodes of each sort an ordinary tree has.
pub struct Ordinary {
    pub memories: usize,
    pub processors: usize,
    pub bridges: usize,
    /// at each bridge
    pub devices: usize,
}

/// A machine: memory blocks, processors, host bridges with devices. A node has at most 28
/// properties.
pub fn ordinary(of: Ordinary) -> Blocks {
    let mut blocks = Blocks::new();
    blocks.open("pseries", &CELLS);
    for number in 0..of.memories {
        blocks.leaf(&format!("memory@{:x}", number << 28), &MEMORY);
    }
    blocks.open("cpus", &CELLS);
    for number in 0..of.processors {
        blocks.leaf(&format!("PowerPC,POWER8@{:x}", 8 * number), &PROCESSOR);
    }
    blocks.end();
    for bridge in 0..of.bridges {
        blocks.open(&format!("pci@8000000200000{bridge:02x}"), &BRIDGE);
        for slot in 0..of.devices {
            let kind = ["ethernet", "scsi", "usb", "legacy-device"][slot % 4];
            blocks.leaf(&format!("{kind}@{:x}", slot / 4), &DEVICE);
        }
        blocks.end();
    }
    blocks.finish()
}

/// The same letters and a number: a name of 47 bytes that differs from others at its end.
fn long_name(number: usize) -> String {
    format!("{:n<44}{number:03}", "")
}

/// Names of 47 bytes, this many in all: below the root nodes that have up to 29 children, and no
/// other property or node.
pub fn long_names(count: usize) -> Blocks {
    let mut blocks = Blocks::new();
    blocks.begin(&long_name(0));
    for number in 1..count {
        blocks.begin(&long_name(number));
        let opens = number % 30 == 1;
        if !opens {
            blocks.end();
        }
        if number % 30 == 0 || number + 1 == count {
            blocks.end();
        }
    }
    blocks.finish()
}

/// Children of one node, each with so many properties: the last one is the index of the connector to
/// which it belongs, and the others have no value.
pub fn children_of_connectors(
    count: usize,
    properties: usize,
    index: impl Fn(usize) -> u32,
) -> Blocks {
    let mut blocks = Blocks::new();
    blocks.begin("pci");
    for child in 0..count {
        blocks.begin(&letters(child));
        PROCESSOR[..properties - 1].iter().for_each(|(name, _)| blocks.property(name, 0));
        blocks.property_of("ibm,my-drc-index", &index(child).to_be_bytes());
        blocks.end();
    }
    blocks.finish()
}

/// How often a token of so many bytes fits beside a root whose name is one letter.
fn fitting(bytes: usize) -> usize {
    (32_768 - 16) / bytes
}

/// As many properties of no value as fit, all of one node. Their names are the ends of 128 strings
/// of 31 bytes, which differ in the last byte alone: first all the whole ones, then all without the
/// first byte, and so on.
pub fn most_properties() -> Blocks {
    let mut blocks = Blocks::new();
    for last in 0x80..=0xFF {
        blocks.strings.extend([b'n'; 30]);
        blocks.strings.extend([last, 0]);
    }
    blocks.begin("r");
    for number in 0..fitting(12) {
        blocks.property_at(number % 128 * 32 + number / 128, &[]);
    }
    blocks.finish()
}

/// A number in letters: a to z, then aa to zz, and so on.
fn letters(number: usize) -> String {
    let last = char::from(b'a' + (number % 26) as u8);
    let before = if number < 26 { String::new() } else { letters(number / 26 - 1) };
    format!("{before}{last}")
}

/// As many children as fit, with names of one to three bytes.
pub fn most_children() -> Blocks {
    let mut blocks = Blocks::new();
    blocks.begin("r");
    (0..fitting(12)).for_each(|number| blocks.leaf(&letters(number), &[]));
    blocks.finish()
}

/// As many children as fit with names of 47 bytes, which differ in the last three alone.
pub fn most_long_children() -> Blocks {
    let mut blocks = Blocks::new();
    blocks.begin("r");
    (0..fitting(56)).for_each(|number| blocks.leaf(&long_name(number), &[]));
    blocks.finish()
}

/// Nodes of 64 properties of no value, as many as fit, with names of 31 bytes that differ in two
/// bytes behind 22 equal ones, where the library's marks do not look: each name is compared with all
/// before it in its node.
pub fn most_alike() -> Blocks {
    let mut blocks = Blocks::new();
    for number in 0..64 {
        let mut name = [b'n'; 31];
        name[22] = b'a' + number / 8;
        name[23] = b'a' + number % 8;
        blocks.strings.extend(name);
        blocks.strings.push(0);
    }
    blocks.begin("r");
    for node in 0..fitting(12 + 64 * 12) {
        blocks.begin(&letters(node));
        (0..64).for_each(|number| blocks.property_at(number * 32, &[]));
        blocks.end();
    }
    blocks.finish()
}
