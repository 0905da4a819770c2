/* Random trees, the blocks that mean them, and damaged blocks. */
#include <string.h>

#include "calls.h"

enum kind { BEGIN, PROPERTY, END };
enum { TOKENS = 2400, VALUES = 40000, NAME = 48 };

/* A node's begin or end, or a property. */
struct token {
    enum kind kind;
    size_t name_len, value_at, value_len;
    uint8_t name[NAME];
};

/* A tree as its tokens in order. */
struct tree {
    size_t count, values_used;
    struct token tokens[TOKENS];
    uint8_t values[VALUES];
};

/* How a tree is made. */
struct shape {
    /* bytes of structure left */
    uint32_t budget;
    /* names and nesting may pass their limits, and properties may stand behind children */
    bool loose;
    /* the longest values */
    uint32_t values;
    /* a node may have two properties, or two children, of one name */
    bool twins;
};

struct blocks forest[FOREST];

static uint32_t less(uint32_t a, uint32_t b) { return a < b ? a : b; }

uint32_t be_word(const uint8_t *b) {
    return (uint32_t)b[0] << 24 | (uint32_t)b[1] << 16 | (uint32_t)b[2] << 8 | b[3];
}

void set_be_word(uint8_t *bytes, uint32_t word) {
    bytes[0] = (uint8_t)(word >> 24);
    bytes[1] = (uint8_t)(word >> 16);
    bytes[2] = (uint8_t)(word >> 8);
    bytes[3] = (uint8_t)word;
}

/* ---- Trees. */

static struct token *add_token(struct tree *t, enum kind kind) {
    must(t->count < TOKENS, "room for a token");
    struct token *token = &t->tokens[t->count++];
    memset(token, 0, sizeof *token);
    token->kind = kind;
    return token;
}

static void any_name(struct token *token, uint32_t limit, bool loose) {
    uint32_t chance = below(100);
    uint32_t len = between(1, 9);
    if (chance < 3)
        len = limit;
    else if (chance < 5)
        len = limit - 1;
    else if (chance == 5 && loose)
        len = limit + 1;
    else if (chance == 6 && loose)
        len = 0;
    for (uint32_t i = 0; i < len; i++)
        token->name[i] = (uint8_t)"abr,-#@"[below(7)];
    token->name_len = len;
}

/* Few different names, so that they repeat, and some that end like others. */
static void property_name(struct token *token, bool loose) {
    static const char *const names[] = {"reg",   "ibm,my-drc-index", "drc-index",
                                        "index", "x",                "status"};
    if (!percent(60)) {
        any_name(token, 31, loose);
        return;
    }
    const char *name = names[below(COUNT(names))];
    token->name_len = strlen(name);
    memcpy(token->name, name, token->name_len);
}

/* A value at the end of the tree's values; its length. */
static uint32_t any_value(struct tree *t, uint32_t longest) {
    uint32_t chance = below(100);
    uint32_t len = below(25);
    if (chance < 4)
        len = between(4040, 4080);
    else if (chance < 6)
        len = between(8130, 8172);
    else if (chance < 10)
        len = below(8172);
    len = less(len, longest);
    must(t->values_used + len < VALUES, "room for a value");
    uint8_t *value = t->values + t->values_used;
    fill(value, len);
    if (percent(20)) {
        /* tokens, for a walk whose place is not where one begins */
        uint32_t first = below(4);
        uint32_t token = PICK(1, 2, 3, 4, 9);
        memset(value, 0, len);
        for (uint32_t i = first; i < len; i += 4)
            value[i] = (uint8_t)token;
    }
    return len;
}

static bool same_name(const struct token *a, const struct token *b) {
    return a->name_len == b->name_len && memcmp(a->name, b->name, a->name_len) == 0;
}

/* Whether the last token has the name of another property, or child, of the node that begins there.
 * Where twins may be, no name is taken. */
static bool taken(const struct tree *t, const struct shape *s, size_t node) {
    const struct token *last = &t->tokens[t->count - 1];
    uint32_t depth = 0;
    for (const struct token *token = &t->tokens[node + 1]; token < last && !s->twins; token++) {
        if (token->kind == END)
            depth--;
        else if (depth == 0 && token->kind == last->kind && same_name(token, last))
            return true;
        if (token->kind == BEGIN)
            depth++;
    }
    return false;
}

/* One more property of a node, if the budget has room for it. */
static bool add_property(struct tree *t, struct shape *s, size_t node) {
    uint32_t len = any_value(t, less(s->values, s->budget));
    if (16 + len > s->budget)
        return false;
    s->budget -= 16 + len;
    struct token *token = add_token(t, PROPERTY);
    do {
        property_name(token, s->loose);
    } while (taken(t, s, node));
    token->value_at = t->values_used;
    token->value_len = len;
    t->values_used += len;
    return true;
}

/* A node below another, whose begin is given, or the root. */
static void add_node(struct tree *t, struct shape *s, size_t parent, uint32_t depth) {
    bool late = s->loose && percent(10);
    size_t node = t->count;
    struct token *token = add_token(t, BEGIN);
    do {
        any_name(token, 47, s->loose);
    } while (depth > 1 && taken(t, s, parent));
    s->budget -= less(s->budget, 60);
    uint32_t properties = percent(70) ? 5 : 40;
    properties = below(properties);
    while (properties > 0 && add_property(t, s, node))
        properties--;
    uint32_t children = depth < (s->loose ? 9 : 8) ? below(4) : 0;
    for (; children > 0 && s->budget >= 100; children--)
        add_node(t, s, node, depth + 1);
    if (late)
        add_property(t, s, node);
    add_token(t, END);
}

/* A tree; a loose one may pass the limits of names and nesting, or have late properties. */
static void any_shape(struct tree *t, bool loose) {
    uint32_t chance = below(100);
    bool twins = percent(10);
    struct shape s = {0, loose, 8172, twins};
    if (chance < 55) {
        s.budget = below(500);
        s.values = 30;
    } else if (chance < 75) {
        s.budget = between(500, 3000);
        s.values = 60;
    } else {
        s.budget = chance < 90 ? 20000 : between(20000, 31000);
    }
    add_node(t, &s, 0, 1);
}

/* A chain of nodes, as deep as it says. */
static void chain(struct tree *t, uint32_t depth) {
    for (uint32_t i = 0; i < depth; i++)
        any_name(add_token(t, BEGIN), 47, false);
    for (uint32_t i = 0; i < depth; i++)
        add_token(t, END);
}

static void new_tree(struct tree *t) {
    bool loose = percent(15);
    uint32_t chance = below(20);
    t->count = t->values_used = 0;
    if (chance < 2)
        chain(t, 8 + chance);
    else
        any_shape(t, loose);
}

static void drop_token(struct tree *t, size_t at) {
    t->count--;
    memmove(t->tokens + at, t->tokens + at + 1, (t->count - at) * sizeof *t->tokens);
}

/* One thing is changed: a name, a value, the order of two properties, or a property goes. */
static void alter(struct tree *t) {
    size_t at = below((uint32_t)t->count);
    struct token *token = &t->tokens[at];
    uint32_t chance = below(4);
    if (token->kind == BEGIN)
        any_name(token, 47, false);
    else if (token->kind == PROPERTY && chance == 0)
        property_name(token, false);
    else if (token->kind == PROPERTY && chance == 1)
        token->value_len++;
    else if (token->kind == PROPERTY && chance == 2)
        drop_token(t, at);
    else if (token->kind == PROPERTY && token[1].kind == PROPERTY) {
        struct token first = token[0];
        token[0] = token[1];
        token[1] = first;
    }
}

static bool same_token(const struct tree *a, const struct tree *b, size_t i) {
    const struct token *x = &a->tokens[i], *y = &b->tokens[i];
    return x->kind == y->kind && same_name(x, y) && x->value_len == y->value_len &&
           memcmp(a->values + x->value_at, b->values + y->value_at, x->value_len) == 0;
}

static bool same_tree(const struct tree *a, const struct tree *b) {
    size_t i = 0;
    while (i < a->count && i < b->count && same_token(a, b, i))
        i++;
    return i == a->count && i == b->count;
}

/* ---- Blocks. */

static void put_bytes(struct blocks *b, const void *bytes, size_t len) {
    must(len <= STRUCTURE_ROOM - b->structure_len, "room for a structure block");
    memcpy(b->structure + b->structure_len, bytes, len);
    b->structure_len += len;
}

static void put_word(struct blocks *b, uint32_t word) {
    uint8_t bytes[4];
    set_be_word(bytes, word);
    put_bytes(b, bytes, 4);
}

static void pad(struct blocks *b) {
    static const uint8_t zeros[4];
    put_bytes(b, zeros, (4 - b->structure_len % 4) % 4);
}

static void put_string(struct blocks *b, const void *bytes, size_t len) {
    must(len <= STRINGS_ROOM - b->strings_len, "room for a strings block");
    memcpy(b->strings + b->strings_len, bytes, len);
    b->strings_len += len;
}

static void put_strings(struct blocks *b, uint8_t byte, size_t count) {
    for (; count > 0; count--)
        put_string(b, &byte, 1);
}

static void put_no_ops(struct blocks *b, uint32_t chance) {
    while (percent(chance))
        put_word(b, 4);
}

/* Where a name stands already, also as the end of a longer one, or the new place that it gets. */
static uint32_t name_place(struct blocks *b, const struct token *token, uint32_t share) {
    size_t len = token->name_len + 1;
    uint8_t name[NAME + 1] = {0};
    memcpy(name, token->name, token->name_len);
    if (percent(share))
        for (size_t at = 0; at + len <= b->strings_len; at++)
            if (memcmp(b->strings + at, name, len) == 0)
                return (uint32_t)at;
    put_string(b, name, len);
    return (uint32_t)(b->strings_len - len);
}

static void put_token(struct blocks *b, const struct tree *t, const struct token *token,
                      uint32_t share) {
    switch (token->kind) {
    case BEGIN:
        put_word(b, 1);
        put_bytes(b, token->name, token->name_len);
        put_bytes(b, "", 1);
        break;
    case PROPERTY:
        put_word(b, 3);
        put_word(b, (uint32_t)token->value_len);
        put_word(b, name_place(b, token, share));
        put_bytes(b, t->values + token->value_at, token->value_len);
        break;
    case END: put_word(b, 2); break;
    }
    pad(b);
}

/* Blocks that mean the tree, with no-ops and an arrangement of the strings by chance. */
static void write_blocks(struct blocks *b, const struct tree *t) {
    uint32_t no_ops = PICK(0, 0, 5, 30);
    uint32_t share = PICK(100, 100, 80);
    b->structure_len = b->strings_len = 0;
    if (percent(30))
        put_strings(b, 'z', 3);
    for (size_t i = 0; i < t->count; i++) {
        put_no_ops(b, no_ops);
        put_token(b, t, &t->tokens[i], share);
    }
    put_no_ops(b, no_ops);
    put_word(b, 9);
    if (percent(30))
        put_strings(b, 'z', 5);
}

/* ---- Damage. */

static void damage_word(struct blocks *b, size_t at) {
    uint32_t word = PICK(1, 2, 3, 4, 9, 0, 5);
    uint32_t chance = below(4);
    if (chance == 0)
        word = below(48);
    else if (chance == 1)
        word = PICK(8171, 8172, 32768, UINT32_MAX, UINT32_C(1) << 31);
    if (at + 4 <= b->structure_len)
        set_be_word(b->structure + at, word);
}

static void damage_structure(struct blocks *b, uint32_t chance) {
    static const uint8_t zeros[4];
    uint32_t word_at = 4 * below((uint32_t)b->structure_len / 4);
    uint32_t byte_at = below((uint32_t)b->structure_len);
    uint32_t bit = below(8);
    uint32_t byte = PICK(0, 1, 'a', 255);
    if (chance == 0 && byte_at < b->structure_len)
        b->structure[byte_at] = (uint8_t)byte;
    else if (chance == 1)
        b->structure_len = word_at;
    else if (chance == 2)
        b->structure_len = byte_at;
    else if (chance == 3)
        put_word(b, PICK(1, 2, 3, 4, 9));
    else if (chance == 4)
        put_bytes(b, zeros, below(5));
    else if (chance == 5 && byte_at < b->structure_len)
        b->structure[byte_at] ^= (uint8_t)(1 << bit);
    else
        damage_word(b, word_at);
}

static void damage_strings(struct blocks *b) {
    uint32_t at = below((uint32_t)b->strings_len);
    uint32_t byte = PICK(0, 'q', 255);
    uint32_t chance = below(4);
    if (chance == 0)
        b->strings_len = at;
    else if (b->strings_len == 0)
        put_strings(b, (uint8_t)byte, 1);
    else if (chance == 1)
        b->strings_len--;
    else
        b->strings[at] = (uint8_t)byte;
}

/* Changes some bytes, words or lengths. */
static void damage(struct blocks *b) {
    uint32_t chance = below(13);
    if (chance < 10)
        damage_structure(b, chance);
    else
        damage_strings(b);
}

/* The length of the token at a place of a sound tree. */
static size_t token_len(const struct blocks *b, size_t at) {
    size_t len = 0;
    if (be_word(b->structure + at) == 1)
        len = strlen((const char *)b->structure + at + 4) + 1;
    else if (be_word(b->structure + at) == 3)
        len = 8 + be_word(b->structure + at + 4);
    return 4 + (len + 3) / 4 * 4;
}

/* The place of a token of a sound tree, by chance; of all up to the root's end-node, no-ops too. */
static size_t any_token(const struct blocks *b) {
    size_t at = 0, chosen = 0;
    uint32_t token, met = 0, depth = 0;
    do {
        token = be_word(b->structure + at);
        if (below(++met) == 0)
            chosen = at;
        if (token == 1)
            depth++;
        else if (token == 2)
            depth--;
        at += token_len(b, at);
    } while (depth > 0 || token == 4);
    return chosen;
}

/* By the block's end before or in it, a name of no byte, a value that is too long, a name outside
 * the strings, or a word that no token has there. */
size_t damage_token(struct blocks *b) {
    size_t at = any_token(b);
    uint8_t *token = b->structure + at;
    uint32_t kind = be_word(token);
    uint32_t words_left = below((uint32_t)token_len(b, at) / 4);
    uint32_t chance = below(4);
    if (chance == 0)
        b->structure_len = at + 4 * words_left;
    else if (chance == 1 && kind == 1)
        token[4] = 0;
    else if (chance == 1 && kind == 3)
        set_be_word(token + 4, PICK(8172, 32768, UINT32_C(1) << 31, UINT32_MAX));
    else if (chance == 2 && kind == 3)
        set_be_word(token + 8, PICK((uint32_t)b->strings_len, UINT32_C(1) << 31, UINT32_MAX));
    else
        set_be_word(token, PICK(9, 0, 5, 8, UINT32_C(1) << 24, UINT32_MAX));
    return at;
}

/* ---- Blocks that mean no random tree. */

/* No-ops before the end up to a length, or bytes behind the strings. */
static void stretch(struct blocks *b) {
    uint32_t len = PICK(32764, 32768, 32768, 32772);
    uint32_t names = PICK(4095, 4096, 4096, 4097);
    if (percent(50) && b->structure_len >= 4 && b->structure_len < len) {
        b->structure_len -= 4;
        while (b->structure_len < len - 4)
            put_word(b, 4);
        put_word(b, 9);
    } else if (b->strings_len < names) {
        put_strings(b, 's', names - b->strings_len);
    }
}

/* A property at the limits: its name ends the strings block, its value has a given length. */
static void at_limits(struct blocks *b) {
    static const uint8_t value[TWO_PAGES] = {7, 7, 7, 7};
    static const char letters[] = "mmmmmmmmmmmmmmmmmmmmmmmmmmmmmmmmmmmmmmmmmmmmmmmmm";
    uint32_t name = PICK(0, 1, 3, 30, 31, 32);
    uint32_t node_name = PICK(0, 1, 46, 47, 48);
    uint32_t longest = TWO_PAGES - 20 - (name + 1);
    uint32_t one_page = PAGE - 20 - (name + 1);
    uint32_t len = PICK(0, 1, 4, one_page - 1, one_page, one_page + 1, longest - 1, longest,
                        longest + 1);
    b->structure_len = b->strings_len = 0;
    put_strings(b, 's', 1000 * below(4));
    put_word(b, 1);
    put_bytes(b, letters, node_name);
    put_bytes(b, "", 1);
    pad(b);
    put_word(b, 3);
    put_word(b, len);
    put_word(b, (uint32_t)b->strings_len);
    put_bytes(b, value, len);
    pad(b);
    put_strings(b, 'n', name);
    if (percent(90))
        put_string(b, "", 1);
    put_word(b, 2);
    put_word(b, 9);
}

/* Any tokens in any order. */
static void soup(struct blocks *b) {
    b->structure_len = b->strings_len = 0;
    put_string(b, "reg\0x", 6);
    for (uint32_t left = below(30); left > 0; left--) {
        uint32_t chance = below(8);
        if (chance < 3) {
            uint8_t name[4] = {(uint8_t)("nopqrstu"[below(8)])};
            put_word(b, 1);
            put_bytes(b, name, 4);
        } else if (chance < 5) {
            put_word(b, 2);
        } else if (chance == 5) {
            put_word(b, 3);
            put_word(b, 4);
            put_word(b, PICK(0, 0, 4, 1, 5, 6));
            put_word(b, any_word());
        } else {
            put_word(b, chance == 6 ? PICK(4, 4, 4, 0, 5, 8) : 9);
        }
    }
}

/* The name of a list's place: so many bytes that are all the same, and behind or before them one
 * that tells. Its length with the NUL. */
static size_t list_name(uint8_t *name, uint32_t alike, bool before, uint32_t place) {
    memset(name, 'n', alike + 1);
    name[before ? 0 : alike] = (uint8_t)(0x80 + place);
    name[alike + 1] = 0;
    return alike + 2;
}

/* A root with properties or children whose names differ in one byte, or are equal in one pair. */
static void name_list(struct blocks *b) {
    bool properties = percent(50);
    bool before = percent(30);
    uint32_t alike = below(properties ? 31 : 47);
    uint32_t count = PICK(2, 3, 5, 63, 64, 65, 66, 100);
    uint32_t one = below(count);
    uint32_t other = percent(50) ? one : below(count);
    uint8_t name[NAME];
    b->structure_len = b->strings_len = 0;
    put_word(b, 1);
    put_bytes(b, "r\0\0", 4);
    for (uint32_t i = 0; i < count; i++) {
        size_t len = list_name(name, alike, before, i == one ? other : i);
        put_word(b, properties ? 3 : 1);
        if (properties) {
            put_word(b, 0);
            put_word(b, (uint32_t)b->strings_len);
            put_string(b, name, len);
        } else {
            put_bytes(b, name, len);
            pad(b);
            put_word(b, 2);
        }
    }
    put_word(b, 2);
    put_word(b, 9);
}

/* Where two names stand in a strings block. */
enum { MY_INDEX = 0, REG = 17 };

static void put_names(struct blocks *b) {
    b->structure_len = b->strings_len = 0;
    put_string(b, "ibm,my-drc-index\0reg", 21);
}

/* A property whose name stands at an offset. */
static void put_property(struct blocks *b, uint32_t name, const uint8_t *value, size_t len) {
    put_word(b, 3);
    put_word(b, (uint32_t)len);
    put_word(b, name);
    put_bytes(b, value, len);
    pad(b);
}

/* The begin-node and the properties of a node that says to which connector it belongs, if the value
 * has four bytes. */
static void connectors_node(struct blocks *b, uint32_t name, uint32_t index, uint32_t len) {
    uint8_t letters[4] = {(uint8_t)('a' + name % 26), (uint8_t)('a' + name / 26)};
    uint8_t value[8] = {0};
    bool last = percent(50);
    set_be_word(value, index);
    put_word(b, 1);
    put_bytes(b, letters, 4);
    if (last)
        put_property(b, REG, value, 4);
    put_property(b, MY_INDEX, value, len);
    if (!last)
        put_property(b, REG, value, 8);
}

void children_of(struct blocks *b, const uint32_t *indexes, size_t count, uint32_t without) {
    put_names(b);
    put_word(b, 1);
    put_bytes(b, "r\0\0", 4);
    for (size_t i = 0; i < count; i++) {
        uint8_t name[4] = {(uint8_t)('a' + i)}, value[4];
        set_be_word(value, indexes[i]);
        if (indexes[i] == without)
            continue;
        put_word(b, 1);
        put_bytes(b, name, 4);
        put_property(b, MY_INDEX, value, 4);
        put_word(b, 2);
    }
    put_word(b, 2);
    put_word(b, 9);
}

/* Nodes below one another and beside, that belong to connectors. */
static void connectors_nodes(struct blocks *b) {
    uint32_t no_ops = PICK(0, 0, 20);
    uint32_t depth = 0;
    put_names(b);
    for (uint32_t left = between(1, 40); left > 0; left--) {
        uint32_t index = some_index();
        uint32_t len = PICK(4, 4, 4, 4, 4, 4, 3, 5);
        put_no_ops(b, no_ops);
        if (depth == 0 || (depth < 9 && percent(60))) {
            connectors_node(b, left, index, len);
            depth++;
        } else if (depth > 1) {
            put_word(b, 2);
            depth--;
        }
    }
    for (; depth > 0; depth--)
        put_word(b, 2);
    put_no_ops(b, no_ops);
    put_word(b, 9);
}

/* Any bytes. */
static void noise(struct blocks *b) {
    b->structure_len = below(200);
    b->strings_len = below(100);
    fill(b->structure, b->structure_len);
    fill(b->strings, b->strings_len);
}

/* ---- The forest. */

static void other_sort(struct blocks *b) {
    uint32_t chance = below(20);
    if (chance < 2)
        stretch(b);
    else if (chance < 4)
        soup(b);
    else if (chance < 6)
        at_limits(b);
    else if (chance == 6)
        noise(b);
    else if (chance < 9)
        name_list(b);
    else if (chance < 13)
        connectors_nodes(b);
}

static void grow(struct blocks *b) {
    static struct tree tree, again;
    static struct blocks second;
    new_tree(&tree);
    write_blocks(b, &tree);
    check_tree(b);
    again = tree;
    if (percent(40))
        alter(&again);
    write_blocks(&second, &again);
    int32_t answer = compare_trees(b, &second);
    must(answer == -33 || (answer == 1) == same_tree(&tree, &again),
         "the comparison says what the trees are");
    other_sort(b);
    for (uint32_t left = below(12); left > 0; left--) {
        damage(&second);
        check_tree(&second);
        compare_trees(b, &second);
    }
    if (percent(15))
        damage(b);
    check_tree(b);
}

void grow_forest(void) {
    for (size_t i = 0; i < FOREST; i++)
        grow(&forest[i]);
}

uint64_t forest_digest(void) {
    uint64_t sum = 0;
    for (size_t i = 0; i < FOREST; i++) {
        sum = digest(sum, forest[i].structure, forest[i].structure_len);
        sum = digest(sum, forest[i].strings, forest[i].strings_len);
    }
    return sum;
}

const struct blocks *any_tree(void) { return &forest[below(FOREST)]; }
