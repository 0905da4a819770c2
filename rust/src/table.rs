//! The table: connectors, the ledger of resources, and the platform's own calls.

use crate::status;

pub const CONNECTORS: usize = 1_024;
pub const RESOURCES: usize = 1_024;
pub const PARTITIONS: u32 = 32;

pub(crate) const CPU: u32 = 1;
pub(crate) const PHB: u32 = 2;
pub(crate) const SLOT: u32 = 3;
pub(crate) const MEM: u32 = 8;

/// A connector's index.
#[derive(Clone, Copy, Debug, PartialEq, Eq)]
pub struct Index(pub u32);

/// A resource's number, from 1.
#[derive(Clone, Copy, Debug, PartialEq, Eq)]
pub struct Resource(pub u32);

#[derive(Clone, Copy, Debug, Default, PartialEq, Eq)]
pub enum State {
    #[default]
    Unusable,
    Available,
    Unisolated,
    Configured,
}

/// The second page of a walk's work area.
#[derive(Clone, Copy, Debug, Default, PartialEq, Eq)]
pub enum Page {
    #[default]
    None,
    Asked,
    Taken,
}

/// A walk's place in the structure block. The default is its start.
#[derive(Clone, Copy, Debug, Default, PartialEq, Eq)]
pub struct Walk {
    pub place: u32,
    pub depth: u32,
    pub page: Page,
}

#[derive(Clone, Copy, Debug, PartialEq, Eq)]
pub struct Connector {
    pub index: Index,
    pub kind: u32,
    pub partition: u32,
    pub parent: Option<Index>,
    pub state: State,
    pub resource: Option<Resource>,
    pub walk: Walk,
    /// the platform wants back what stands here
    pub wanted: bool,
}

/// A resource's line in the ledger: its kind, and where it stands, or none for the pool.
#[derive(Clone, Copy, Debug, PartialEq, Eq)]
pub struct Line {
    pub kind: u32,
    pub at: Option<Index>,
}

#[derive(Clone, Debug, Default, PartialEq, Eq)]
pub struct Table {
    pub(crate) connectors: Vec<Connector>,
    pub(crate) ledger: Vec<Line>,
}

pub(crate) fn kind_known(kind: u32) -> bool {
    matches!(kind, CPU | PHB | SLOT | MEM)
}

impl Table {
    pub fn new() -> Table {
        Table::default()
    }

    pub fn connectors(&self) -> &[Connector] {
        &self.connectors
    }

    pub fn ledger(&self) -> &[Line] {
        &self.ledger
    }

    /// The first connector with the index.
    pub(crate) fn find(&self, index: Index) -> Option<&Connector> {
        self.connectors.iter().find(|c| c.index == index)
    }

    /// Its row, from 0.
    pub(crate) fn row(&self, index: Index) -> Option<usize> {
        self.connectors.iter().position(|c| c.index == index)
    }

    /// Whether a connector with the index is there, whoever's, and is unowned.
    pub fn is_unowned(&self, index: Index) -> bool {
        self.find(index).is_some_and(|connector| connector.state == State::Unusable)
    }

    /// The row of the first connector with the index, from 0, or the refusal.
    pub fn row_of(&self, index: Index) -> i32 {
        self.row(index).map_or(status::NO_CONNECTOR, |row| row as i32)
    }

    fn find_mut(&mut self, index: Index) -> Option<&mut Connector> {
        self.connectors.iter_mut().find(|c| c.index == index)
    }

    pub(crate) fn line_mut(&mut self, resource: Resource) -> Option<&mut Line> {
        let row = (resource.0 as usize).checked_sub(1)?;
        self.ledger.get_mut(row)
    }

    /// Puts a resource back in the pool, where its line names this connector.
    pub(crate) fn return_to_pool(&mut self, resource: Option<Resource>, from: Index) {
        let line = resource.and_then(|r| self.line_mut(r));
        if let Some(line) = line.filter(|l| l.at == Some(from)) {
            line.at = None;
        }
    }

    pub fn add_connector(
        &mut self,
        kind: u32,
        index: Index,
        partition: u32,
        parent: Option<Index>,
    ) -> i32 {
        if !kind_known(kind) || index.0 >> 28 != kind {
            return status::BAD_KIND;
        }
        if self.find(index).is_some() {
            return status::INDEX_IN_USE;
        }
        if !(1..=PARTITIONS).contains(&partition) {
            return status::BAD_PARTITION;
        }
        if let Some(parent) = parent {
            let bridge = self.find(parent).filter(|p| p.kind == PHB && p.partition == partition);
            if kind != SLOT || bridge.is_none() {
                return status::BAD_PARENT;
            }
        }
        if self.connectors.len() >= CONNECTORS {
            return status::FULL;
        }
        self.connectors.push(Connector {
            index,
            kind,
            partition,
            parent,
            state: State::Unusable,
            resource: None,
            walk: Walk::default(),
            wanted: false,
        });
        status::OK
    }

    /// The new number, or the refusal.
    pub fn add_resource(&mut self, kind: u32) -> Result<Resource, i32> {
        if !kind_known(kind) {
            return Err(status::BAD_KIND);
        }
        if self.ledger.len() >= RESOURCES {
            return Err(status::FULL);
        }
        self.ledger.push(Line { kind, at: None });
        Ok(Resource(self.ledger.len() as u32))
    }

    pub fn place(&mut self, resource: Resource, index: Index) -> i32 {
        let Some(row) = self.row(index) else {
            return status::NO_CONNECTOR;
        };
        let connector = self.connectors[row];
        let Some(line) = self.line_mut(resource) else {
            return status::NO_RESOURCE;
        };
        if line.kind != connector.kind {
            return status::KINDS_DIFFER;
        }
        if line.at.is_some() {
            return status::NOT_IN_POOL;
        }
        if connector.resource.is_some() {
            return status::HOLDS_ONE;
        }
        line.at = Some(index);
        self.connectors[row].resource = Some(resource);
        status::OK
    }

    pub fn retract(&mut self, index: Index) -> i32 {
        let Some(connector) = self.find_mut(index) else {
            return status::NO_CONNECTOR;
        };
        if connector.resource.is_none() {
            return status::HOLDS_NOTHING;
        }
        if connector.state != State::Unusable {
            return status::NOT_UNUSABLE;
        }
        connector.wanted = false;
        let resource = connector.resource.take();
        self.return_to_pool(resource, index);
        status::OK
    }

    /// A request to give back what stands at a connector, which stays until that is done.
    pub fn want_back(&mut self, index: Index) -> i32 {
        let Some(connector) = self.find_mut(index) else {
            return status::NO_CONNECTOR;
        };
        if connector.resource.is_none() {
            return status::HOLDS_NOTHING;
        }
        connector.wanted = true;
        status::OK
    }
}
