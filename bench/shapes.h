/* Shapes of datagrams that may be dear to read: as long as a datagram may be, and built so that one parser or another has most to do. The seeds are
   fixed, so each run has the same bytes. It follows hearing.h. */

/* A generator (xorshift64*). */
static uint64_t state;

static uint32_t drawn(void) {
    state ^= state >> 12;
    state ^= state << 25;
    state ^= state >> 27;
    return (uint32_t)((state * 0x2545f4914f6cdd1du) >> 32);
}

static uint32_t below(uint32_t bound) { return (uint32_t)(((uint64_t)drawn() * bound) >> 32); }

typedef struct {
    int ear;
    char name[72];
    size_t length;
    uint8_t bytes[LIMIT];
} shape;

enum { MOST_SHAPES = 200 };
static shape shapes[MOST_SHAPES];
static size_t shape_count;

/* ---- the datagram that is written; what doesn't fit is left out */

static shape *written;
static unsigned last_number;

static size_t room(void) { return LIMIT - written->length; }

static void put(unsigned byte) {
    if (room() > 0) written->bytes[written->length++] = (uint8_t)byte;
}

static void put_all(const void *bytes, size_t length) {
    for (size_t i = 0; i < length; i++) put(((const uint8_t *)bytes)[i]);
}

static void put_drawn(size_t length) {
    while (length-- > 0) put(drawn());
}

/* A header, with a token of so many times this byte. */
static void begin(int ear, unsigned first, unsigned code, unsigned token) {
    if (shape_count == MOST_SHAPES) {
        fprintf(stderr, "there are too many shapes\n");
        exit(2);
    }
    state = 1 + shape_count;
    written = &shapes[shape_count++];
    written->ear = ear;
    written->length = 0;
    last_number = 0;
    put(first);
    put(code);
    put(0);
    put(0);
    for (unsigned i = 0; i < (first & 15); i++) put(token);
}

/* The half of an option's first byte for this number, and the bytes that follow for it. */
static unsigned nibble(size_t number) { return number < 13 ? (unsigned)number : number < 269 ? 13 : 14; }

static void put_extended(size_t number) {
    if (number >= 269) {
        put((unsigned)(number - 269) >> 8);
        put((unsigned)(number - 269));
    } else if (number >= 13) {
        put((unsigned)number - 13);
    }
}

static void option_head(unsigned number, size_t length) {
    unsigned delta = number - last_number;
    put(nibble(delta) << 4 | nibble(length));
    put_extended(delta);
    put_extended(length);
    last_number = number;
}

static void option(unsigned number, const void *value, size_t length) {
    option_head(number, length);
    put_all(value, length);
}

/* Options of this number, each with so many drawn letters, as many as fit beside so many bytes. */
static unsigned options(unsigned number, size_t length, size_t beside) {
    unsigned count = 0;
    while (room() >= 5 + length + beside) {
        option_head(number, length);
        for (size_t i = 0; i < length; i++) put('a' + below(26));
        count++;
    }
    return count;
}

static void end(const char *name) { snprintf(written->name, sizeof written->name, "%s", name); }

static void end_counted(const char *before, unsigned number, const char *after) {
    snprintf(written->name, sizeof written->name, "%s%u%s", before, number, after);
}

/* ---- CBOR */

static void head(unsigned major, size_t argument) {
    major <<= 5;
    if (argument < 24) {
        put(major | (unsigned)argument);
    } else if (argument < 256) {
        put(major | 24);
        put((unsigned)argument);
    } else {
        put(major | 25);
        put((unsigned)argument >> 8);
        put((unsigned)argument);
    }
}

enum { BYTES = 2, TEXT = 3, ARRAY = 4, MAP = 5 };

/* The numbers below a bound in this order. */
enum { DRAWN, RISING, FALLING, FOLDED, ORDERS };
static const char *const ORDER[ORDERS] = {"in random order", "rising", "falling", "from both ends"};
static unsigned order[LIMIT];

static void order_of(unsigned bound, int how) {
    for (unsigned i = 0; i < bound; i++) {
        switch (how) {
        case FALLING: order[i] = bound - 1 - i; break;
        case FOLDED: order[i] = i % 2 ? bound - 1 - i / 2 : i / 2; break;
        default: order[i] = i;
        }
    }
    for (unsigned i = bound; how == DRAWN && i > 1; i--) {
        unsigned other = below(i), kept = order[i - 1];
        order[i - 1] = order[other];
        order[other] = kept;
    }
}

/* Key of this number among those of two bytes: numbers, negative ones, bytes and texts. */
static void key_of_two(unsigned number) {
    if (number < 232) {
        put(0x18);
        put(24 + number);
    } else if (number < 464) {
        put(0x38);
        put(number - 232 + 24);
    } else {
        put(0x41);
        put(number - 464);
    }
}

static void key_of_three(unsigned number) {
    put(0x19);
    put((number >> 8) + 1);
    put(number);
}

/* Eight equal bytes, and one. */
static void key_of_nine(unsigned number) {
    put(0x1b);
    for (int i = 0; i < 7; i++) put(0x77);
    put(number);
}

static void key_of_sixteen(unsigned number) {
    put(0x4f);
    for (int i = 0; i < 14; i++) put(0x77);
    put(number);
}

static void key_of_one(unsigned number) { put(number < 24 ? number : 0x20 + (number - 24) % 24); }

static void equal_key(unsigned number) {
    (void)number;
    put(7);
}

/* A small number in the longest head but one. */
static void key_in_long_head(unsigned number) {
    put(0x1a);
    put(0);
    put(0);
    put(number >> 8);
    put(number);
}

static void key_of_map(unsigned number) {
    put(0xa1);
    key_of_two(number);
    put(0);
}

/* A map of so many of these keys, or as many as fit, each with a value of a byte. */
static unsigned map_of(void (*key)(unsigned), size_t length, unsigned most, int how) {
    size_t fit = room() < 4 ? 0 : (room() - 3) / (length + 1);
    unsigned count = most < fit ? most : (unsigned)fit;
    head(MAP, count);
    order_of(count, how);
    for (unsigned i = 0; i < count; i++) {
        key(order[i]);
        put(i % 24);
    }
    return count;
}

/* Maps of so many keys of one byte, as many as fit, in an array. */
static unsigned maps_of(unsigned keys, int how) {
    unsigned count = (unsigned)((room() - 3) / (1 + (keys > 23) + 2 * keys));
    head(ARRAY, count);
    for (unsigned i = 0; i < count; i++) map_of(key_of_one, 1, keys, how);
    return count;
}

/* ---- payloads, which a server reads of a post to authz-info, and a client of the answer to its post; each names what it wrote */

static void two_byte_keys(void) { end_counted("a map of ", map_of(key_of_two, 2, 360, DRAWN), " keys of 2 bytes, in random order"); }
static void two_byte_keys_rising(void) { end_counted("a map of ", map_of(key_of_two, 2, 1000, RISING), " keys of 2 bytes, rising"); }
static void two_byte_keys_falling(void) { end_counted("a map of ", map_of(key_of_two, 2, 1000, FALLING), " keys of 2 bytes, falling"); }
static void two_byte_keys_folded(void) { end_counted("a map of ", map_of(key_of_two, 2, 1000, FOLDED), " keys of 2 bytes, from both ends"); }
static void three_byte_keys(void) { end_counted("a map of ", map_of(key_of_three, 3, 288, DRAWN), " keys of 3 bytes"); }
static void nine_byte_keys(void) { end_counted("a map of ", map_of(key_of_nine, 9, 115, DRAWN), " keys of 9 bytes, of which 8 are equal"); }
static void sixteen_byte_keys(void) { end_counted("a map of ", map_of(key_of_sixteen, 16, 64, DRAWN), " keys of 16 bytes, of which 15 are equal"); }
static void equal_keys(void) { end_counted("a map of ", map_of(equal_key, 1, 570, RISING), " equal keys of a byte"); }
static void long_heads(void) { end_counted("a map of ", map_of(key_in_long_head, 5, 1000, DRAWN), " keys in longer heads than they need"); }
static void maps_as_keys(void) { end_counted("a map of ", map_of(key_of_map, 4, 1000, DRAWN), " maps as keys"); }

/* The two keys in the middle are equal. */
static void one_pair_equal(void) {
    size_t start = written->length;
    unsigned count = map_of(key_of_two, 2, 360, DRAWN);
    uint8_t *keys = written->bytes + start + 3;
    memcpy(keys + 3 * (count - 1), keys + 3 * (count / 2), 2);
    end_counted("a map of ", count, " keys of 2 bytes, the last one once more");
}

/* Eight levels in all, the innermost a map; each level has another key as long as the key that leads on. */
static void deep_maps(void) {
    for (int i = 0; i < 6; i++) {
        put(0xa2);
        put(1);
        put(2);
        put(3);
    }
    end_counted("maps in maps to 8 levels, the innermost of ", map_of(key_of_two, 2, 1000, DRAWN), " keys");
}

static void deep_items(void) {
    for (int i = 0; i < 6; i++) {
        put(0xa2);
        put(1);
        put(2);
        put(3);
    }
    unsigned count = (unsigned)room() - 3;
    if (count > 1000) count = 1000;
    head(ARRAY, count);
    for (unsigned i = 0; i < count; i++) put(i % 24);
    end_counted("maps in maps to 8 levels, with ", count, " items inside");
}

/* Maps that are keys of maps that are keys. */
static void deep_keys(void) {
    for (int i = 0; i < 6; i++) put(0xa1);
    size_t start = written->length;
    written->length += 6;
    unsigned count = map_of(key_of_two, 2, 1000, DRAWN);
    /* The values of the keys, one for each level. */
    memmove(written->bytes + start, written->bytes + start + 6, written->length - start - 6);
    written->length -= 6;
    for (int i = 0; i < 6; i++) put(0);
    end_counted("maps as keys of maps to 8 levels, the innermost of ", count, " keys");
}

static void small_maps(void) {
    unsigned count = 2 * (unsigned)((room() - 3) / 14);
    head(ARRAY, count);
    for (unsigned i = 0; i < count; i++) map_of(key_of_one, 1, i % 2 ? 4 : 2, FALLING);
    end_counted("an array of ", count, " maps of 2 and 4 keys");
}

static void maps_of_20(void) { end_counted("an array of ", maps_of(20, FALLING), " maps of 20 keys, falling"); }
static void maps_of_32(void) { end_counted("an array of ", maps_of(32, DRAWN), " maps of 32 keys, in random order"); }
static void maps_of_48(void) { end_counted("an array of ", maps_of(48, FALLING), " maps of 48 keys, falling"); }

static void many_items(void) {
    unsigned count = (unsigned)room() - 3;
    if (count > 1100) count = 1100;
    head(ARRAY, count);
    for (unsigned i = 0; i < count; i++) put(i % 24);
    end_counted("an array of ", count, " items of a byte");
}

/* Letters of one to four bytes. */
static void long_text(void) {
    static const char LETTERS[] = "a\xc3\xa9\xe2\x82\xac\xf0\x9d\x84\x9e";
    unsigned count = 1100;
    head(TEXT, count);
    for (unsigned i = 0; i < count; i++) put((unsigned char)LETTERS[i % 10]);
    end_counted("a text of ", count, " bytes of UTF-8");
}

/* ---- tokens, as what a post carries: a map of the token, a nonce and an ID */

/* What follows the token in the map. */
static const uint8_t BEHIND[] = {0x18, 0x28, 0x48, 1, 2, 3, 4, 5, 6, 7, 8, 0x18, 0x2b, 0x40};

/* Begins the map and the token, which takes all that there is room for beside what follows it. */
static size_t token_begin(void) {
    put(0xa3);
    put(1);
    size_t length = room() - 3 - sizeof BEHIND;
    put(0x59);
    put((unsigned)length >> 8);
    put((unsigned)length);
    return written->length + length;
}

static const uint8_t PROTECTED[] = {0x83, 0x43, 0xa1, 0x01, 0x0a, 0xa1, 0x05, 0x4d};

static void long_token(void) {
    size_t end_at = token_begin();
    put_all(PROTECTED, sizeof PROTECTED);
    put_drawn(13);
    size_t length = end_at - written->length - 3;
    put(0x59);
    put((unsigned)length >> 8);
    put((unsigned)length);
    put_drawn(length);
    put_all(BEHIND, sizeof BEHIND);
    end_counted("a token of ", (unsigned)length, " bytes of ciphertext, which doesn't open");
}

/* A token that has so much of what there is room for in its protected header, and the rest in the other one; each is a map. */
static void keys_in_headers(unsigned parts, unsigned all, const char *name) {
    size_t end_at = token_begin();
    size_t share = (end_at - written->length - 12) * parts / all;
    put(0x83);
    unsigned count = (unsigned)(share / 3);
    head(BYTES, 3 + 3 * count);
    put(0xb9);
    put(count >> 8);
    put(count);
    order_of(count, DRAWN);
    for (unsigned i = 0; i < count; i++) {
        key_of_two(order[i]);
        put(0);
    }
    unsigned others = (unsigned)((end_at - written->length - 3 - 1) / 3);
    put(0xb9);
    put(others >> 8);
    put(others);
    order_of(others, DRAWN);
    for (unsigned i = 0; i < others; i++) {
        key_of_two(order[i]);
        put(0);
    }
    size_t rest = end_at - written->length - 1;
    head(BYTES, rest);
    put_drawn(rest);
    put_all(BEHIND, sizeof BEHIND);
    end_counted(name, count + others, " keys in its headers");
}

static void keys_in_protected(void) { keys_in_headers(1, 1, "a token whose protected header has most of "); }
static void keys_in_unprotected(void) { keys_in_headers(0, 1, "a token whose unprotected header has most of "); }
static void keys_in_both(void) { keys_in_headers(1, 2, "a token of "); }

/* A token that opens, in a map with as many other keys as fit: it begins as the post of a client does. */
static uint8_t valid_post[256];
static size_t valid_length;

static void valid_among_keys(void) {
    /* Behind the header, the options and the head of a map of three. */
    size_t start = 4 + 4 + 11 + 2 + 1 + 1;
    size_t fields = valid_length - start, rest = room() - 3 - fields;
    unsigned count = (unsigned)(rest / 3);
    head(MAP, 3 + count);
    put_all(valid_post + start, fields);
    order_of(count + 40, DRAWN);
    unsigned left = count;
    for (unsigned i = 0; left > 0; i++) {
        /* 40 and 43 are there already. */
        if (order[i] == 40 - 24 || order[i] == 43 - 24) continue;
        key_of_two(order[i]);
        put(0);
        left--;
    }
    end_counted("a token that opens, among ", count, " other keys of 2 bytes");
}

/* What a server answers to a post, among as many other keys as fit. */
static void answer_among_keys(void) {
    static const uint8_t FIELDS[] = {0x18, 0x2a, 0x48, 1, 2, 3, 4, 5, 6, 7, 8, 0x18, 0x2c, 0x41, 9};
    unsigned count = (unsigned)((room() - 3 - sizeof FIELDS) / 3);
    head(MAP, 2 + count);
    order_of(count + 40, DRAWN);
    unsigned left = count;
    for (unsigned i = 0; left > 0; i++) {
        if (order[i] == 42 - 24 || order[i] == 44 - 24) continue;
        key_of_two(order[i]);
        put(0);
        left--;
    }
    put_all(FIELDS, sizeof FIELDS);
    end_counted("the fields of an answer, after ", count, " other keys of 2 bytes");
}

/* ---- options: what stands in front of them, and how the datagram ends, is of the node that hears it */

/* A number that is known to nobody, elective and safe to forward. */
enum { UNKNOWN = 65000 };

/* Each option one byte: the next number, or the next but one, and no value. */
static unsigned bare_options(unsigned apart) {
    unsigned count = 0;
    while (room() > 0) {
        put(apart << 4);
        count++;
    }
    return count;
}

/* ---- the shapes of each node */

static const char HOST[] = "s", PATH[] = "r000", SCHEME[] = "coap", AUTHZ_INFO[] = "authz-info";
static const uint8_t ACE_CBOR[] = {19};

static void post_to_server(void (*payload)(void)) {
    begin(SERVER, 0x44, 2, 1);
    option(11, AUTHZ_INFO, sizeof AUTHZ_INFO - 1);
    option(12, ACE_CBOR, 1);
    put(0xff);
    payload();
}

static void answer_to_post(void (*payload)(void)) {
    begin(CLIENT_POST, 0x58, 0x41, 1);
    option(12, ACE_CBOR, 1);
    put(0xff);
    payload();
}

/* The value of an option OSCORE: a Partial IV of five bytes, and a kid context and a kid of these lengths; no kid context where that is below 0. */
static void put_oscore(int context, size_t kid, unsigned kid_byte) {
    size_t length = 1 + 5 + (context < 0 ? 0 : 1 + (size_t)context) + kid;
    option_head(9, length);
    put(0x08 | 5 | (context < 0 ? 0 : 0x10));
    for (int i = 0; i < 5; i++) put(0x80 + i);
    if (context >= 0) {
        put((unsigned)context);
        put_drawn((size_t)context);
    }
    for (size_t i = 0; i < kid; i++) put(kid_byte);
}

static void sealed_rest(void) {
    put(0xff);
    put_drawn(room());
}

/* The longest Proxy-Uri that there may be, which begins so and goes on with these letters again and again. */
static void long_proxy_uri(const char *start, const char *letters) {
    option_head(35, 1034);
    size_t end_at = written->length + 1034;
    put_all(start, strlen(start));
    for (size_t i = 0; written->length < end_at; i++) put((unsigned char)letters[i % strlen(letters)]);
}

static void get_of_server(void) { begin(SERVER, 0x44, 1, 1); }

/* A post of a token that opens, whose scope has as many entries as fit. */
static void many_subtrees(void) {
    begin(SERVER, 0x40, 2, 0);
    written->length = osc_bench_flood_valid(65535, written->bytes, LIMIT);
    end("a token that opens, whose scope has 163 subtrees");
}

static void server_shapes(void) {
    static void (*const PAYLOADS[])(void) = {
        two_byte_keys, two_byte_keys_rising, two_byte_keys_falling, two_byte_keys_folded, one_pair_equal, three_byte_keys, nine_byte_keys, sixteen_byte_keys,
        equal_keys, long_heads, maps_as_keys, deep_maps, deep_items, deep_keys, small_maps, maps_of_20, maps_of_32, maps_of_48, many_items, long_text,
        long_token, keys_in_protected, keys_in_unprotected, keys_in_both, valid_among_keys,
    };
    valid_length = osc_bench_flood_valid(1, valid_post, sizeof valid_post);
    if (valid_length == 0) {
        fprintf(stderr, "there is no valid post\n");
        exit(2);
    }
    for (size_t i = 0; i < sizeof PAYLOADS / sizeof PAYLOADS[0]; i++) post_to_server(PAYLOADS[i]);

    many_subtrees();

    get_of_server();
    end_counted("", bare_options(1), " options of a byte, of each number");
    get_of_server();
    end_counted("", bare_options(2), " options of a byte, of each even number");
    get_of_server();
    option(11, PATH, 4);
    end_counted("", options(UNKNOWN, 0, 0), " options that nobody knows, empty");
    get_of_server();
    option(11, PATH, 4);
    end_counted("", options(UNKNOWN, 8, 0), " options that nobody knows, of 8 bytes");
    get_of_server();
    unsigned count = options(1, 8, 6);
    option(11, PATH, 4);
    end_counted("", count, " If-Match of 8 bytes");
    get_of_server();
    count = options(1, 1, 6);
    option(11, PATH, 4);
    end_counted("", count, " If-Match of a byte");
    get_of_server();
    count = options(1, 0, 6);
    option(11, PATH, 4);
    end_counted("", count, " If-Match, empty");
    get_of_server();
    count = options(8, 0, 6);
    option(11, PATH, 4);
    end_counted("", count, " Location-Path, empty");
    get_of_server();
    count = options(4, 8, 6);
    option(11, PATH, 4);
    end_counted("", count, " ETag of 8 bytes");
    get_of_server();
    end_counted("", options(11, 1, 0), " Uri-Path of a byte");
    get_of_server();
    option_head(11, room() - 3);
    while (room() > 0) put('a' + below(26));
    end("one Uri-Path, as long as fits");
    get_of_server();
    for (int i = 0; i < 8; i++) {
        option_head(11, 32);
        for (int j = 0; j < 8; j++) put_all("\xf0\x9d\x84\x9e", 4);
    }
    options(UNKNOWN, 0, 0);
    end("the longest path, of letters of 4 bytes, and unknown options");
    get_of_server();
    option(11, PATH, 4);
    end_counted("", options(15, 1, 0), " Uri-Query of a byte");
    get_of_server();
    long_proxy_uri("coap://s/", "a/");
    end("a Proxy-Uri of 1,034 bytes");

    begin(SERVER, 0x44, 2, 1);
    put_oscore(-1, 1, 1);
    sealed_rest();
    end("forged under a live context");
    begin(SERVER, 0x44, 2, 1);
    count = options(8, 0, 40);
    put_oscore(-1, 1, 1);
    put(0xff);
    put_drawn(9);
    end_counted("forged under a live context, after ", count, " unknown options");
    begin(SERVER, 0x44, 2, 1);
    put_oscore(-1, 249, 2);
    sealed_rest();
    end("a context that isn't there, by the longest kid");
    begin(SERVER, 0x44, 2, 1);
    put_oscore(247, 1, 1);
    sealed_rest();
    end("a context that isn't there, by the longest kid context");
    begin(SERVER, 0x44, 3, 1);
    option(11, PATH, 4);
    sealed_rest();
    end("a PUT without protection, as long as fits");
}

/* What a holder seals: a code, options and a payload, as long as a request may be around them. Its options are those of class E. */
static void begin_text(void) {
    begin(HOLDER, 1, 0, 0);
    written->length = 0;
    put(1);
}

/* The most bytes of such a text: a datagram less header, token, option OSCORE, marker and tag. */
enum { LONGEST_TEXT = LIMIT - 4 - 8 - 11 - 1 - 8 };

static void holder_shapes(void) {
    static const struct {
        unsigned number, length;
        const char *name;
    } ALL[] = {{1, 0, " If-Match, empty"}, {1, 1, " If-Match of a byte"}, {8, 0, " Location-Path, empty"}, {15, 1, " Uri-Query of a byte"}, {UNKNOWN, 0, " options that nobody knows, empty"}};
    for (size_t i = 0; i < sizeof ALL / sizeof ALL[0]; i++) {
        begin_text();
        if (ALL[i].number > 11) option(11, "log", 3);
        unsigned count = options(ALL[i].number, ALL[i].length, LIMIT - LONGEST_TEXT + 6);
        if (ALL[i].number < 11) option(11, "log", 3);
        end_counted("", count, ALL[i].name);
    }
    begin_text();
    option(11, "log", 3);
    end_counted("", options(11, 1, LIMIT - LONGEST_TEXT), " Uri-Path of a byte");
}

/* What a full server hears: posts of tokens that open, of an id that has contexts, of one that has none, and of one whose scope has many subtrees. */
static void full_hears(unsigned number, const char *name) {
    begin(FULL, 0x44, 2, 4);
    written->length = osc_bench_flood_valid((uint16_t)number, written->bytes, LIMIT);
    end(name);
}

static void full_shapes(void) {
    full_hears(1, "a post of a token whose id has contexts");
    full_hears(200, "a post of a token of another id");
    full_hears(65535, "a post of a token of another id, with a scope of 163 subtrees");
}

/* What a client hears of its server, while something waits. */
static void client_shapes(void) {
    static void (*const PAYLOADS[])(void) = {
        two_byte_keys, two_byte_keys_rising, two_byte_keys_falling, two_byte_keys_folded, one_pair_equal, three_byte_keys, nine_byte_keys, sixteen_byte_keys,
        equal_keys, long_heads, maps_as_keys, deep_maps, deep_items, deep_keys, small_maps, maps_of_20, maps_of_32, maps_of_48, many_items, long_text,
        answer_among_keys,
    };
    for (size_t i = 0; i < sizeof PAYLOADS / sizeof PAYLOADS[0]; i++) answer_to_post(PAYLOADS[i]);
    begin(CLIENT_POST, 0x58, 0x41, 1);
    unsigned count = options(UNKNOWN, 0, 40);
    put(0xff);
    two_byte_keys_falling();
    end_counted("", count, " options that nobody knows, and few keys");

    begin(CLIENT_ASK, 0x48, 0x44, 1);
    option_head(9, 0);
    sealed_rest();
    end("a forged answer, as long as fits");
    begin(CLIENT_ASK, 0x48, 0x44, 1);
    put_oscore(-1, 0, 0);
    sealed_rest();
    end("a forged answer with a Partial IV, as long as fits");
    begin(CLIENT_ASK, 0x48, 0x44, 1);
    put_oscore(247, 1, 0);
    sealed_rest();
    end("a forged answer with the longest kid context");
    begin(CLIENT_ASK, 0x48, 0x44, 1);
    count = options(8, 0, 16);
    put_oscore(-1, 0, 0);
    put(0xff);
    put_drawn(9);
    end_counted("a forged answer, after ", count, " unknown options");
    begin(CLIENT_ASK, 0x48, 0x45, 1);
    end_counted("", bare_options(1), " options of a byte, of each number");
    begin(CLIENT_ASK, 0x48, 0x45, 1);
    end_counted("", bare_options(2), " options of a byte, of each even number");
    begin(CLIENT_ASK, 0x48, 0x45, 1);
    end_counted("", options(4, 8, 0), " ETag of 8 bytes");
    begin(CLIENT_ASK, 0x48, 0x45, 1);
    end_counted("", options(UNKNOWN, 0, 0), " options that nobody knows, empty");
    begin(CLIENT_ASK, 0x44, 1, 1);
    end_counted("a request with ", bare_options(1), " options of a byte");
}

static void proxied(unsigned code) {
    begin(PROXY, 0x44, code, 1);
    option(3, HOST, 1);
}

static void scheme(void) { option(39, SCHEME, 4); }

static void proxy_shapes(void) {
    begin(PROXY, 0x44, 1, 1);
    end_counted("", bare_options(1), " options of a byte, of each number");
    begin(PROXY, 0x44, 1, 1);
    end_counted("", bare_options(2), " options of a byte, of each even number");
    proxied(1);
    scheme();
    end_counted("", options(UNKNOWN, 0, 8), " options that nobody knows, empty");
    proxied(1);
    scheme();
    end_counted("", options(UNKNOWN, 8, 8), " options that nobody knows, of 8 bytes");
    begin(PROXY, 0x44, 1, 1);
    unsigned count = options(1, 8, 20);
    option(3, HOST, 1);
    scheme();
    end_counted("", count, " If-Match of 8 bytes");
    begin(PROXY, 0x44, 1, 1);
    count = options(1, 0, 20);
    option(3, HOST, 1);
    scheme();
    end_counted("", count, " If-Match, empty");
    proxied(1);
    count = options(11, 1, 14);
    scheme();
    end_counted("", count, " Uri-Path of a byte");
    proxied(1);
    option_head(11, room() - 3 - 14);
    while (room() > 14) put('a' + below(26));
    scheme();
    end("one Uri-Path, as long as fits");
    proxied(1);
    count = options(15, 1, 14);
    scheme();
    end_counted("", count, " Uri-Query of a byte");
    begin(PROXY, 0x44, 1, 1);
    long_proxy_uri("coap://s:5683/", "a/");
    end("a Proxy-Uri of 1,034 bytes, of a path");
    begin(PROXY, 0x44, 1, 1);
    long_proxy_uri("coap://", "host.");
    end("a Proxy-Uri of 1,034 bytes, of a host");
    begin(PROXY, 0x44, 1, 1);
    long_proxy_uri("coap://s:", "0");
    end("a Proxy-Uri of 1,034 bytes, of a port");
    begin(PROXY, 0x44, 1, 1);
    option_head(35, 13);
    put_all("coap://s:5683", 13);
    end_counted("a Proxy-Uri, and ", options(UNKNOWN, 0, 0), " options that nobody knows");
    begin(PROXY, 0x44, 2, 1);
    option(3, HOST, 1);
    put_oscore(-1, 1, 1);
    scheme();
    /* The token that is forwarded has 4 bytes more. */
    put(0xff);
    put_drawn(room() - 4);
    end("a protected request, as long as fits");
    proxied(2);
    scheme();
    sealed_rest();
    end("a request that would be too long, forwarded");
}

static void from_target(unsigned first) { begin(TARGET, first, 0x45, 0); }

static void target_shapes(void) {
    from_target(0x48);
    end_counted("an answer with ", bare_options(1), " options of a byte, of each number");
    from_target(0x48);
    end_counted("an answer with ", bare_options(2), " options of a byte, of each even number");
    from_target(0x48);
    end_counted("an answer with ", options(UNKNOWN, 0, 0), " options that nobody knows, empty");
    from_target(0x48);
    end_counted("an answer with ", options(4, 8, 0), " ETag of 8 bytes");
    from_target(0x48);
    option_head(9, 0);
    sealed_rest();
    end("a protected answer, as long as fits");
    from_target(0x58);
    sealed_rest();
    end("an answer that isn't confirmable, as long as fits");
    begin(TARGET, 0x48, 0x45, 99);
    sealed_rest();
    end("an answer to nobody, as long as fits");
}

static void make_shapes(void) {
    shape_count = 0;
    server_shapes();
    full_shapes();
    holder_shapes();
    client_shapes();
    proxy_shapes();
    target_shapes();
}
