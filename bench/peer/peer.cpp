// The job of `verdicts`, written by hand and not proved, to be compared with it by the instructions that each executes: reads a graph's text
// from standard input and prints a row for each node, or the refusal's row.
//
// It is meant to be hard to beat. Rows in their usual form (no quotes, CRLF ends) are read by a short path that reads each byte once; a row
// that this path doesn't take is read again by the full rules, which alone refuse. Edges are linked and judged as they are read. Both systems
// are solved by joining sets (SURE by what is not sure), with a queue of nodes. Sets are printed eight permissions at a time from a table.
#include <cstdint>
#include <cstring>
#include <emmintrin.h>
#include <unistd.h>

namespace {

constexpr unsigned most_bytes = 65536;
constexpr unsigned most_nodes = 1024;
constexpr unsigned most_edges = 4096;
constexpr unsigned most_permissions = 64;
constexpr uint64_t everything = ~uint64_t{0};

enum Kind : uint8_t { call_node, return_node, check_node };

struct Node;

// An edge in the list of those of its kind that leave a node.
struct Edge {
    Node *to;
    Edge *next;
};

struct Node {
    uint64_t grants;
    // What the system at hand has found: the join of all that arrives, and of what goes on from here.
    uint64_t in;
    uint64_t flow;
    // An arriving set goes on if its MAY set has `gate` (see each system). `call_gate` is the gate of a set that is cut to the grants.
    uint64_t gate;
    uint64_t call_gate;
    uint64_t need;
    // Permissions that are not granted; what went on in MAY; what is not taken away past a check.
    uint64_t lacks;
    uint64_t may_flow;
    uint64_t keep;
    // Call edges and transfer edges that leave, and those calls that carry what arrives (none where privilege fixes what they carry).
    Edge *leaving[2];
    Edge *open_calls;
    uint64_t denied;
    uint64_t granted;
    // The number as a row has it, in the four bytes that end with its last digit: the comma before it, where there is room, and the digits.
    // No field holds a comma, so that a number in the text is this node's, and well written, exactly if these bytes are the same.
    uint32_t label;
    Kind kind;
    bool privileged;
    bool entry;
    // On the queue, or never to be put there since nothing leaves.
    bool queued;
    uint8_t check;

    Edge *calls() const { return leaving[0]; }
    Edge *transfers() const { return leaving[1]; }
};

static_assert(sizeof(Node) == 128, "a node's place is found by a shift");

struct Refusal {
    unsigned number;
    unsigned place;
};

constexpr Refusal accepted{0, 0};
constexpr Refusal too_long{12, 0};

// Zeros past the text let the short path look ahead without asking where the text ends: no byte that it takes is zero.
unsigned char text[most_bytes + 1 + 64];
Node nodes[most_nodes];
Edge edges[most_edges];
Node *queue[most_nodes];
// A row takes at most 372 bytes; the table's copies write up to 32 past what counts.
char output[381000 + 64];

unsigned node_count;
unsigned edge_count;
unsigned permission_count;
uint64_t all_permissions;

inline uint16_t load16(const void *from) {
    uint16_t word;
    memcpy(&word, from, sizeof word);
    return word;
}

inline uint64_t load64(const void *from) {
    uint64_t word;
    memcpy(&word, from, sizeof word);
    return word;
}

inline uint32_t load32(const void *from) {
    uint32_t word;
    memcpy(&word, from, sizeof word);
    return word;
}

// Two bytes as load16 finds them.
constexpr uint16_t pair(char first, char second) {
    return static_cast<uint16_t>(static_cast<unsigned char>(first) | static_cast<unsigned char>(second) << 8);
}

constexpr uint32_t quad(char a, char b, char c, char d) {
    return pair(a, b) | static_cast<uint32_t>(pair(c, d)) << 16;
}

// The decimal digits of 0, 1, 2 and so on, the first digit lowest in the word.
struct Counter {
    uint32_t digits = '0';
    uint32_t length = 1;
    // How far the digits are shifted to end at the word's top, and a comma to stand before them there.
    uint32_t shift = 24;
    uint32_t comma = ',' << 16;
    uint32_t step = 1;
    unsigned until_carry = 10;
    unsigned number = 0;

    void next() {
        digits += step;
        if (--until_carry == 0) carry();
    }

    __attribute__((noinline)) void carry() {
        number += 10;
        digits = 0;
        length = 0;
        for (unsigned rest = number; rest != 0; rest /= 10, ++length) digits = digits << 8 | ('0' + rest % 10);
        shift = 32 - 8 * length;
        comma = length < 4 ? ',' << (24 - 8 * length) : 0;
        step = 1u << 8 * (length - 1);
        until_carry = 10;
    }
};

// ---- Reading: the full rules, for rows that the short path doesn't take.

// A field of a row, and where the text goes on past the comma or the row's end that follows it.
struct Field {
    const unsigned char *start;
    const unsigned char *end;
    const unsigned char *next;
    bool good;
    bool last;

    bool is(char letter) const { return end - start == 1 && *start == letter; }
    bool empty() const { return start == end; }
};

inline bool is_plain(unsigned char b) { return b != ',' && b != '"' && b != '\r' && b != '\n'; }

Field follow(const unsigned char *start, const unsigned char *end, const unsigned char *at, const unsigned char *text_end) {
    if (at == text_end) return {start, end, at, true, true};
    if (*at == ',') return {start, end, at + 1, true, false};
    if (*at == '\r' && text_end - at > 1 && at[1] == '\n') return {start, end, at + 2, true, true};
    return {start, end, at, false, false};
}

Field read_field(const unsigned char *at, const unsigned char *text_end) {
    if (at < text_end && *at == '"') {
        const unsigned char *end = at + 1;
        while (end < text_end && *end != '"') ++end;
        if (end == text_end) return {at, at, at, false, false};
        return follow(at + 1, end, end + 1, text_end);
    }
    const unsigned char *end = at;
    while (end < text_end && is_plain(*end)) ++end;
    return follow(at, end, end, text_end);
}

// The six fields of a row. Whether there are six.
bool read_row(const unsigned char *&at, const unsigned char *text_end, Field (&fields)[6]) {
    for (unsigned i = 0; i < 6; ++i) {
        fields[i] = read_field(at, text_end);
        if (!fields[i].good || fields[i].last != (i == 5)) return false;
        at = fields[i].next;
    }
    return true;
}

// A decimal number of at most four digits with no needless zeros.
bool read_number(const unsigned char *start, const unsigned char *end, unsigned &value) {
    auto length = end - start;
    if (length < 1 || length > 4 || (*start == '0' && length > 1)) return false;
    value = 0;
    for (; start < end; ++start) {
        unsigned digit = *start - unsigned{'0'};
        if (digit > 9) return false;
        value = value * 10 + digit;
    }
    return true;
}

bool read_number(const Field &field, unsigned &value) { return read_number(field.start, field.end, value); }

bool read_marks(const Field &field, bool &privileged, bool &entry) {
    privileged = field.is('P');
    entry = field.is('E');
    if (field.empty() || privileged || entry) return true;
    privileged = entry = field.end - field.start == 2 && load16(field.start) == pair('P', 'E');
    return entry;
}

// Strictly ascending numbers. `beyond`: one of them is no permission.
bool read_grants(const Field &field, uint64_t &set, bool &beyond) {
    set = 0;
    beyond = false;
    if (field.empty()) return true;
    int last = -1;
    for (const unsigned char *at = field.start;; ++at) {
        const unsigned char *start = at;
        while (at < field.end && *at != ' ') ++at;
        unsigned value;
        if (!read_number(start, at, value) || static_cast<int>(value) <= last) return false;
        last = static_cast<int>(value);
        if (value < permission_count) set |= uint64_t{1} << value;
        else beyond = true;
        if (at == field.end) return true;
    }
}

bool read_header(const unsigned char *&at, const unsigned char *text_end) {
    Field fields[6];
    if (!read_row(at, text_end, fields) || !fields[0].is('G')) return false;
    if (!read_number(fields[1], permission_count) || !read_number(fields[2], node_count) || !read_number(fields[3], edge_count)) return false;
    if (!fields[4].empty() || !fields[5].empty()) return false;
    return permission_count >= 1 && permission_count <= most_permissions && node_count >= 1 && node_count <= most_nodes &&
           edge_count <= most_edges;
}

// What the full rules say of a row, and where the next one starts.
struct Row {
    enum { good, breaks_rule, wrong } said;
    const unsigned char *next;
};

constexpr Row wrong_row{Row::wrong, nullptr};

__attribute__((noinline)) Row read_node_fully(const unsigned char *at, const unsigned char *text_end, unsigned number, Node &node) {
    Field fields[6];
    if (!read_row(at, text_end, fields) || !fields[0].is('N')) return wrong_row;
    unsigned own;
    if (!read_number(fields[1], own) || own != number) return wrong_row;
    unsigned check = 0;
    if (fields[2].is('K')) {
        node.kind = check_node;
        if (!read_number(fields[3], check)) return wrong_row;
    } else {
        if (!(fields[2].is('C') || fields[2].is('R')) || !fields[3].empty()) return wrong_row;
        node.kind = fields[2].is('C') ? call_node : return_node;
    }
    node.check = static_cast<uint8_t>(check);
    bool beyond;
    if (!read_marks(fields[4], node.privileged, node.entry) || !read_grants(fields[5], node.grants, beyond)) return wrong_row;
    if (beyond || (node.kind == check_node && check >= permission_count)) return {Row::breaks_rule, at};
    return {Row::good, at};
}

inline void link_edge(Edge &edge, Node &from, Node &to, bool is_transfer) {
    Edge *&list = from.leaving[is_transfer];
    edge.to = &to;
    edge.next = list;
    list = &edge;
}

__attribute__((noinline)) Row read_edge_fully(const unsigned char *at, const unsigned char *text_end, Edge &edge) {
    Field fields[6];
    if (!read_row(at, text_end, fields) || !fields[0].is('E')) return wrong_row;
    unsigned from, to;
    if (!read_number(fields[1], from) || !read_number(fields[2], to)) return wrong_row;
    bool is_transfer = fields[3].is('T');
    if (!(is_transfer || fields[3].is('C')) || !fields[4].empty() || !fields[5].empty()) return wrong_row;
    if (from >= node_count || to >= node_count) return {Row::breaks_rule, at};
    bool obeys = is_transfer ? nodes[from].kind != return_node && nodes[from].grants == nodes[to].grants : nodes[from].kind == call_node;
    if (!obeys) return {Row::breaks_rule, at};
    link_edge(edge, nodes[from], nodes[to], is_transfer);
    return {Row::good, at};
}

// ---- Reading: the short path. It stops at a row that it can't take, and has then stored nothing of it that lasts.

inline unsigned digit_of(unsigned char b) { return b - unsigned{'0'}; }

// A check's row has a number below 100 with no needless zeros, and a comma. The place past them, or none.
inline const unsigned char *take_check(const unsigned char *p, Node &node) {
    unsigned value = digit_of(p[0]);
    if (value > 9) return nullptr;
    unsigned second = digit_of(p[1]);
    if (second <= 9) {
        if (value == 0) return nullptr;
        value = value * 10 + second;
        ++p;
    }
    if (p[1] != ',' || value >= permission_count) return nullptr;
    node.check = static_cast<uint8_t>(value);
    return p + 2;
}

// Strictly ascending grants below 64 and the row's end. The place past them, or none. No number of one digit follows one of two.
inline const unsigned char *take_grants(const unsigned char *p, uint64_t &set) {
    set = 0;
    if (load16(p) == pair('\r', '\n')) return p + 2;
    uint64_t members = 0;
    // The least number that may come next.
    unsigned low = 0;
    unsigned char after;
    while ((after = p[1]) == ' ' || after == '\r') {
        unsigned v = digit_of(p[0]);
        if (v > 9 || v < low) return nullptr;
        members |= uint64_t{1} << v;
        low = v + 1;
        p += 2;
        if (after == '\r') goto ended;
    }
    if (low < 10) low = 10;
    do {
        unsigned second = digit_of(p[1]);
        unsigned v = digit_of(p[0]) * 10 + second;
        if (second > 9 || v < low || v >= most_permissions) return nullptr;
        members |= uint64_t{1} << v;
        low = v + 1;
        after = p[2];
        p += 3;
    } while (after == ' ');
    if (after != '\r') return nullptr;
ended:
    set = members;
    return *p == '\n' ? p + 1 : nullptr;
}

// The row of the node with this number. The place past it, or none.
inline const unsigned char *take_node(const unsigned char *p, const Counter &own, Node &node) {
    if (load16(p) != pair('N', ',') || load32(p + 2) << own.shift != own.digits << own.shift) return nullptr;
    p += 2 + own.length;
    uint32_t word = load32(p);
    if (word == quad(',', 'C', ',', ',')) {
        node.kind = call_node;
        p += 4;
    } else if (word == quad(',', 'R', ',', ',')) {
        node.kind = return_node;
        p += 4;
    } else {
        if (word << 8 != quad('\0', ',', 'K', ',')) return nullptr;
        node.kind = check_node;
        p = take_check(p + 3, node);
        if (!p) return nullptr;
    }
    if (*p != ',') {
        node.privileged = *p == 'P';
        p += node.privileged;
        node.entry = *p == 'E';
        p += node.entry;
        if (*p != ',') return nullptr;
    }
    p = take_grants(p + 1, node.grants);
    return p && (node.grants & ~all_permissions) == 0 ? p : nullptr;
}

// For a field of so many bytes, the bytes that a label has of it in the four that end with its last, and the digits among them. None where it
// is too long or empty, and a label is never 0.
constexpr uint32_t label_bytes[18] = {0, 0xffff0000, 0xffffff00, 0xffffffff, 0xffffffff};
constexpr uint32_t digit_bits[18] = {0, 0x0f000000, 0x0f0f0000, 0x0f0f0f00, 0x0f0f0f0f};

// The node whose number is the field of so many bytes before a place, or none. The bytes are multiplied out all at once as if they were
// digits; whether they are is told by the node's label.
inline Node *take_end(const unsigned char *past, unsigned length) {
    uint32_t word = load32(past - 4) & label_bytes[length];
    uint32_t digits = word & digit_bits[length];
    uint32_t pairs = digits * (1 + (10 << 8)) >> 8 & 0x00ff00ff;
    uint32_t value = pairs * (1 + (100 << 16)) >> 16;
    if (value >= node_count || nodes[value].label != word) return nullptr;
    return &nodes[value];
}

// The last six bytes of an edge's row, at the top of a word.
constexpr uint64_t row_end(char way) {
    return (pair(',', way) | static_cast<uint64_t>(quad(',', ',', '\r', '\n')) << 16) << 16;
}

// Reads, judges and links edges from `edge` up to `end`. Where it stopped.
inline const unsigned char *take_edges(const unsigned char *at, Edge *&edge, Edge *end) {
    const __m128i comma = _mm_set1_epi8(',');
    Edge *next = edge;
    for (; next != end; ++next) {
        if (load16(at) != pair('E', ',')) break;
        // From its first number on the row has at most 15 bytes. Bits above these stand for commas that are missing.
        const unsigned char *p = at + 2;
        __m128i row = _mm_loadu_si128(reinterpret_cast<const __m128i *>(p));
        unsigned commas = static_cast<unsigned>(_mm_movemask_epi8(_mm_cmpeq_epi8(row, comma))) | 3u << 16;
        unsigned first = static_cast<unsigned>(__builtin_ctz(commas));
        unsigned second = static_cast<unsigned>(__builtin_ctz(commas & (commas - 1)));
        Node *from = take_end(p + first, first);
        if (!from) break;
        Node *to = take_end(p + second, second - first - 1);
        if (!to) break;
        uint64_t last = load64(p + second) << 16;
        if (last == row_end('T')) {
            if (from->kind == return_node || from->grants != to->grants) break;
            link_edge(*next, *from, *to, true);
        } else {
            if (last != row_end('C') || from->kind != call_node) break;
            link_edge(*next, *from, *to, false);
        }
        at = p + second + 6;
    }
    edge = next;
    return at;
}

// ---- Reading: the whole text.

// All of standard input, and at most a byte more than a text may have.
size_t read_input() {
    size_t count = 0;
    while (count <= most_bytes) {
        ssize_t got = read(STDIN_FILENO, text + count, most_bytes + 1 - count);
        if (got <= 0) break;
        count += static_cast<size_t>(got);
    }
    return count;
}

// Reads and judges the text: fills nodes and their lists of edges.
__attribute__((noinline)) Refusal read_text() {
    size_t size = read_input();
    if (size > most_bytes) return too_long;
    const unsigned char *at = text;
    const unsigned char *const text_end = text + size;
    if (!read_header(at, text_end)) return {11, 1};
    all_permissions = everything >> (64 - permission_count);

    unsigned bad_node = most_nodes;
    bool has_entry = false;
    Counter own;
    for (unsigned i = 0; i < node_count; ++i) {
        Node &node = nodes[i];
        node.label = own.digits << own.shift | own.comma;
        const unsigned char *next = take_node(at, own, node);
        if (!next) {
            Row row = read_node_fully(at, text_end, i, node);
            if (row.said == Row::wrong) return {11, 2 + i};
            if (row.said == Row::breaks_rule && bad_node == most_nodes) bad_node = i;
            next = row.next;
        }
        at = next;
        has_entry |= node.entry;
        own.next();
    }

    unsigned bad_edge = most_edges;
    Edge *const end = edges + edge_count;
    for (Edge *edge = edges;; ++edge) {
        at = take_edges(at, edge, end);
        if (edge == end) break;
        unsigned e = static_cast<unsigned>(edge - edges);
        Row row = read_edge_fully(at, text_end, *edge);
        if (row.said == Row::wrong) return {11, 2 + node_count + e};
        if (row.said == Row::breaks_rule && bad_edge == most_edges) bad_edge = e;
        at = row.next;
    }
    if (at != text_end) return {11, 2 + node_count + edge_count};
    if (bad_node < most_nodes) return {2, bad_node};
    if (bad_edge < most_edges) return {3, bad_edge};
    if (!has_entry) return {4, 0};
    return accepted;
}

// ---- Solving.

// Nodes whose flow changed, each at most once, so that there is room for all.
struct Queue {
    unsigned first = 0;
    unsigned past = 0;

    bool empty() const { return first == past; }

    void put(Node *node) {
        if (node->queued) return;
        node->queued = true;
        queue[past++ % most_nodes] = node;
    }

    Node *take() {
        Node *node = queue[first++ % most_nodes];
        node->queued = false;
        return node;
    }
};

// The permission of an unprivileged check as a set, empty at any other node.
inline uint64_t asked_at(const Node &node) {
    return node.kind == check_node && !node.privileged ? uint64_t{1} << node.check : 0;
}

// A privileged check of what its node isn't granted lets nothing through.
inline bool is_shut(const Node &node) {
    return node.kind == check_node && node.privileged && (node.grants >> node.check & 1) == 0;
}

inline void deliver_may(Queue &waiting, Node *to, uint64_t set) {
    to->in |= set;
    if ((set & to->gate) == 0) return;
    uint64_t more = to->flow | set;
    if (more == to->flow) return;
    to->flow = more;
    waiting.put(to);
}

inline void call_may(Queue &waiting, const Edge *edge, uint64_t call) {
    for (; edge; edge = edge->next) deliver_may(waiting, edge->to, call & edge->to->grants);
}

// The least sets. A set goes on from a node if it has a member of the gate: of any, at a check of the permission that is asked for.
void solve_may() {
    Queue waiting;
    for (unsigned i = 0; i < node_count; ++i) {
        Node &node = nodes[i];
        uint64_t asked = asked_at(node);
        node.gate = asked ? asked : is_shut(node) ? 0 : everything;
        node.open_calls = node.privileged ? nullptr : node.calls();
        node.queued = !node.open_calls && !node.transfers();
        node.in = node.entry ? node.grants : 0;
        node.flow = node.in & node.gate ? node.in : 0;
        if (node.flow) waiting.put(&node);
    }
    // What a privileged node's calls carry never changes.
    for (unsigned i = 0; i < node_count; ++i)
        if (nodes[i].privileged) call_may(waiting, nodes[i].calls(), nodes[i].grants);
    while (!waiting.empty()) {
        const Node *node = waiting.take();
        uint64_t flow = node->flow;
        call_may(waiting, node->open_calls, flow);
        for (const Edge *edge = node->transfers(); edge; edge = edge->next) deliver_may(waiting, edge->to, flow);
    }
}

inline void deliver_unsure(Queue &waiting, Node *to, uint64_t set, bool counts) {
    to->in |= set;
    if (!counts) return;
    uint64_t more = to->flow | set;
    if (more == to->flow) return;
    to->flow = more;
    waiting.put(to);
}

inline void call_unsure(Queue &waiting, const Edge *edge, uint64_t call, uint64_t may) {
    for (; edge; edge = edge->next) {
        Node *to = edge->to;
        deliver_unsure(waiting, to, call | to->lacks, (may & to->call_gate) == to->need);
    }
}

// Takes over what MAY found, and sets a node up for the other system.
inline void turn_to_unsure(Node &node) {
    uint64_t asked = asked_at(node);
    node.lacks = all_permissions & ~node.grants;
    node.denied = node.privileged ? node.lacks : all_permissions & ~node.in;
    node.may_flow = node.flow;
    // A set counts at a check if its MAY set has what is asked for, and at any other node: 0 is then had, and 0 needed.
    node.gate = asked;
    node.call_gate = asked & node.grants;
    node.need = asked;
    node.keep = ~asked;
    node.in = node.entry ? node.lacks : 0;
    node.flow = node.entry && (asked & ~node.grants) == 0 ? node.lacks : 0;
    if (is_shut(node) || (asked && !node.may_flow)) {
        // Nothing goes on past this check, so nothing is sure there, the permission asked for included.
        node.flow = all_permissions;
        node.keep = everything;
        node.need = 1;
        node.gate = node.call_gate = 0;
    }
}

// The greatest sets, as the least of what is not sure: a common part is then a join.
void solve_sure() {
    Queue waiting;
    for (unsigned i = 0; i < node_count; ++i) {
        Node &node = nodes[i];
        turn_to_unsure(node);
        if (node.open_calls || node.flow) waiting.put(&node);
    }
    for (unsigned i = 0; i < node_count; ++i)
        if (nodes[i].privileged) call_unsure(waiting, nodes[i].calls(), nodes[i].lacks, nodes[i].grants);
    while (!waiting.empty()) {
        const Node *node = waiting.take();
        uint64_t flow = node->flow & node->keep;
        uint64_t may = node->may_flow;
        call_unsure(waiting, node->open_calls, flow, may);
        for (const Edge *edge = node->transfers(); edge; edge = edge->next)
            deliver_unsure(waiting, edge->to, flow, (may & edge->to->gate) == edge->to->need);
    }
    for (unsigned i = 0; i < node_count; ++i) {
        Node &node = nodes[i];
        node.granted = node.privileged ? node.grants : all_permissions & ~node.in;
    }
}

// Finds the denied and granted sets of all nodes.
__attribute__((noinline)) void solve() {
    solve_may();
    solve_sure();
}

// ---- Printing.

// The members of eight permissions as text, a space before each, and how many bytes that is.
struct Members {
    char bytes[31];
    uint8_t length;
};

struct MembersTable {
    Members of[most_permissions / 8][256];
};

constexpr MembersTable make_members() {
    MembersTable table{};
    for (unsigned eighth = 0; eighth < most_permissions / 8; ++eighth)
        for (unsigned set = 0; set < 256; ++set) {
            Members &members = table.of[eighth][set];
            for (unsigned bit = 0; bit < 8; ++bit) {
                if ((set >> bit & 1) == 0) continue;
                unsigned p = eighth * 8 + bit;
                members.bytes[members.length++] = ' ';
                if (p >= 10) members.bytes[members.length++] = static_cast<char>('0' + p / 10);
                members.bytes[members.length++] = static_cast<char>('0' + p % 10);
            }
        }
    return table;
}

constexpr MembersTable members_table = make_members();

// A comma and a set: the comma takes the place of the first member's space.
inline char *print_set(char *at, uint64_t set) {
    char *start = at;
    for (const Members *eighth = members_table.of[0]; set; set >>= 8, eighth += 256) {
        const Members &members = eighth[set & 0xff];
        memcpy(at, members.bytes, 24);
        at += members.length;
    }
    *start = ',';
    return at + (at == start);
}

inline char *print_verdict(char *at, const Node &node) {
    if (node.kind != check_node) {
        uint32_t end = quad(',', '\r', '\n', '\0');
        memcpy(at, &end, 4);
        return at + 3;
    }
    unsigned fails = node.denied >> node.check & 1;
    unsigned passes = node.granted >> node.check & 1;
    uint32_t end = quad(',', '0', '\r', '\n') + ((passes + 2 * fails) << 8);
    memcpy(at, &end, 4);
    return at + 4;
}

bool write_all(const char *from, const char *end) {
    while (from < end) {
        ssize_t count = write(STDOUT_FILENO, from, static_cast<size_t>(end - from));
        if (count <= 0) return false;
        from += count;
    }
    return true;
}

__attribute__((noinline)) bool print_rows() {
    constexpr char header[] = "node,denied,granted,verdict\r\n";
    memcpy(output, header, sizeof header - 1);
    char *at = output + sizeof header - 1;
    Counter own;
    for (unsigned i = 0; i < node_count; ++i) {
        memcpy(at, &own.digits, 4);
        at = print_set(at + own.length, nodes[i].denied);
        at = print_set(at, nodes[i].granted);
        at = print_verdict(at, nodes[i]);
        own.next();
    }
    return write_all(output, at);
}

char *print_number(char *at, unsigned number) {
    if (number >= 10) at = print_number(at, number / 10);
    *at = static_cast<char>('0' + number % 10);
    return at + 1;
}

bool print_refusal(Refusal refusal) {
    memcpy(output, "refused,", 8);
    char *at = print_number(output + 8, refusal.number);
    *at++ = ',';
    at = print_number(at, refusal.place);
    *at++ = '\r';
    *at++ = '\n';
    return write_all(output, at);
}

} // namespace

int main() {
    Refusal refusal = read_text();
    if (refusal.number != 0) return !print_refusal(refusal);
    solve();
    return !print_rows();
}
