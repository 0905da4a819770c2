/* Walks from their start to their end, with a reader behind, and walks of lone records. */
#include "calls.h"

#define MEM_1 UINT32_C(0x80000001)
#define MEM_2 UINT32_C(0x80000002)
#define MEM_3 UINT32_C(0x80000003)

int32_t follow(struct reader *r, bool siblings, bool *held, int32_t status, const struct area *work,
               size_t len) {
    if (*held) {
        *held = false;
        if (status == 2)
            return read_reply(r, 1, work, len);
        read_reply(r, 4, work, len);
    }
    if (siblings && status == 4) {
        *held = true;
        return 1;
    }
    return read_reply(r, status, work, len);
}

/* A connector with a resource, Unisolated. */
static void unisolated(struct table *t) {
    fresh(t);
    must(add_connector(t, MEM, MEM_1, 1, 0) == 0, "a connector is added");
    must(add_resource(t, MEM) == 0, "a resource is added");
    must(place(t, 1, MEM_1) == 0, "the resource is placed");
    must(set_indicator(t, 1, ALLOCATION, MEM_1, 1) == 0, "the connector becomes usable");
    must(set_indicator(t, 1, ISOLATION, MEM_1, 1) == 0, "the connector is unisolated");
}

/* The walk to its end; the reader's last answer. */
static int32_t walk_to_end(struct table *t, struct reader *r, const struct blocks *tree) {
    static struct area work;
    bool siblings = percent(50), held = false;
    size_t len = PAGE;
    int32_t answer = 1;
    new_area(&work);
    set_be_word(work.bytes, MEM_1);
    set_be_word(work.bytes + 4, 0);
    while (answer > 0) {
        int32_t status = configure_connector(t, 1, &work, len, tree);
        if (status == 5)
            len = TWO_PAGES;
        answer = follow(r, siblings, &held, status, &work, len);
    }
    return answer;
}

/* The connector is given back as it is wanted to be: isolated, released and the resource in the
 * pool. Then it is wanted back before it is taken. */
static void give_back(struct table *t) {
    must(want_back(t, MEM_1) == 0, "the connector is wanted back");
    must(set_indicator(t, 1, ISOLATION, MEM_1, 0) == 0, "the connector is isolated");
    must(set_indicator(t, 1, ALLOCATION, MEM_1, 0) == 0, "the connector is released");
    must(free_lowest(t, MEM) == 1, "the resource is in the pool");
    must(want_back(t, MEM_1) == -21, "an empty connector is not wanted back");
    must(place(t, 1, MEM_1) == 0, "the resource is placed again");
    must(want_back(t, MEM_1) == 0, "the connector is wanted back again");
    must(set_indicator(t, 1, ALLOCATION, MEM_1, 1) == -3, "it does not become usable");
    must(retract(t, MEM_1) == 0, "the resource is retracted");
    must(free_count(t, MEM) == 1, "the resource is in the pool again");
}

void rebuilt(void) {
    static struct table t;
    static struct reader r;
    const struct blocks *tree = any_tree();
    unisolated(&t);
    /* room for a name at each property */
    size_t names = tree->structure_len / 12;
    names = 32 * (names < tree->strings_len ? names : tree->strings_len);
    new_reader(&r, tree->structure_len, names < READER_STRINGS ? names : READER_STRINGS);
    int32_t answer = walk_to_end(&t, &r, tree);
    bool sound = check_tree(tree) == 1;
    must(!sound || answer == 0, "a sound tree is walked to its end");
    if (answer == 0 && r.words[1] <= 4096) {
        int32_t same = compare_read(tree, &r);
        must(!sound || same == 1, "the reader builds the tree that was lent");
    }
    give_back(&t);
}

/* A lone record walks while the table that it reads changes. */
static void beside_changes(struct table *t, const struct blocks *tree) {
    static struct area work;
    uint32_t record[DRC_RECORD_WORDS + BEHIND] = {MEM_1, MEM, 1, 0, UNISOLATED, 1};
    uint32_t wanted = any_wanted();
    record[9] = wanted;
    new_area(&work);
    while (walk_record(record, &work, PAGE, tree, t) > 0)
        if (percent(20))
            other_words(t);
    must(record[4] == CONFIGURED, "a tree with nodes to leave out is walked by a record");
    must(record[9] == wanted, "a walk leaves the word for wanted back as it is");
}

void left_out(void) {
    static struct table t;
    static struct reader r;
    static struct blocks tree, kept;
    uint32_t indexes[20];
    size_t count = between(1, COUNT(indexes));
    for (size_t i = 0; i < count; i++)
        indexes[i] = PICK(MEM_1, MEM_2, MEM_3);
    children_of(&tree, indexes, count, 0);
    children_of(&kept, indexes, count, MEM_2);
    unisolated(&t);
    must(add_connector(&t, MEM, MEM_2, 2, 0) == 0, "another partition's connector is added");
    new_reader(&r, tree.structure_len, tree.strings_len);
    must(walk_to_end(&t, &r, &tree) == 0, "a tree with nodes to leave out is walked to its end");
    must(compare_read(&kept, &r) == 1, "the reader builds the tree without the unowned nodes");
    give_back(&t);
    beside_changes(&t, &tree);
}

/* ---- Faults. */

/* A sound tree, one whose nodes belong to connectors among them, with one token damaged; the
 * token's offset. */
static size_t damaged_tree(struct blocks *b) {
    uint32_t indexes[8];
    for (size_t i = 0; i < COUNT(indexes); i++)
        indexes[i] = PICK(MEM_1, MEM_2, MEM_3);
    *b = *any_tree();
    if (percent(30) || check_tree(b) != 1)
        children_of(b, indexes, COUNT(indexes), 0);
    return damage_token(b);
}

/* A walk at a table up to its -1; the offset that this gives. */
static uint32_t walk_to_fault(const struct blocks *tree) {
    static struct table t;
    static struct area work;
    size_t len = PAGE;
    uint32_t fault;
    int32_t status;
    unisolated(&t);
    must(add_connector(&t, MEM, MEM_2, 2, 0) == 0, "another partition's connector is added");
    new_area(&work);
    set_be_word(work.bytes, MEM_1);
    set_be_word(work.bytes + 4, 0);
    do {
        status = configure_connector_at(&t, 1, &work, len, tree, &fault);
        if (status == 5)
            len = TWO_PAGES;
    } while (status > 0);
    must(status == -1, "a damaged tree is not walked to its end");
    return fault;
}

/* The same of a lone record beside a table of any words. */
static uint32_t record_to_fault(const struct blocks *tree) {
    static struct table t;
    static struct area work;
    uint32_t record[DRC_RECORD_WORDS + BEHIND] = {MEM_1, MEM, 1, 0, UNISOLATED, 1};
    uint32_t fault;
    int32_t status;
    any_words(&t);
    new_area(&work);
    do {
        size_t len = record[8] == 0 ? PAGE : TWO_PAGES;
        status = walk_record_at(record, &work, len, tree, &t, &fault);
    } while (status > 0);
    must(status == -1, "a damaged tree is not walked to its end by a record");
    return fault;
}

void faults(void) {
    static struct blocks tree;
    size_t at = damaged_tree(&tree);
    must(walk_to_fault(&tree) == at, "a walk's -1 gives the offset of the damaged token");
    must(record_to_fault(&tree) == at, "a record's -1 gives the offset of the damaged token");
}

/* ---- Lone records. */

static uint32_t record_word(void) { return percent(10) ? any_word() : below(10); }

static void any_walk(uint32_t *record, const struct blocks *tree) {
    for (size_t i = 0; i < DRC_RECORD_WORDS; i++)
        record[i] = record_word();
    record[4] = PICK(2, 2, 2, 2, 2, 0, 1, 3, 4);
    record[6] = below((uint32_t)tree->structure_len + 9);
    if (percent(75))
        record[6] &= ~UINT32_C(3);
}

static size_t lent(uint32_t page) {
    uint32_t chance = below(100);
    if (chance == 0)
        return below(AREA);
    if (chance < 5)
        return PICK(PAGE, TWO_PAGES);
    return page == 1 || page == 2 ? TWO_PAGES : PAGE;
}

void lone_record(void) {
    static struct area work;
    static struct table t;
    uint32_t record[DRC_RECORD_WORDS + BEHIND] = {MEM_1, MEM, 1, 0, UNISOLATED, 1};
    const struct blocks *tree = any_tree();
    new_area(&work);
    any_words(&t);
    record[9] = any_wanted();
    if (percent(50))
        any_walk(record, tree);
    for (uint32_t left = PICK(1, 20, 2000); left > 0; left--) {
        if (percent(5))
            other_words(&t);
        int32_t status = walk_record(record, &work, lent(record[8]), tree, &t);
        if (status <= 0 && percent(80))
            return;
    }
}
