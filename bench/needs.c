/* What nodes need: the most bytes of the heap that a call of osc_bench held, how many blocks it took, and how deep the stack went. */
#include "measured.h"

uint64_t osc_bench_serve(uint16_t resources, uint32_t apart, const uint8_t *datagram, size_t length, uint64_t rounds);
uint64_t osc_bench_serve_gets(uint8_t contexts, uint16_t rounds);
uint64_t osc_bench_serve_posts(uint8_t contexts, uint16_t rounds);
uint64_t osc_bench_serve_forged(uint16_t rounds);
uint64_t osc_bench_ask(uint64_t rounds);
uint64_t osc_bench_post(uint8_t others, uint64_t rounds);
uint64_t osc_bench_client(uint8_t posts);
uint64_t osc_bench_forward(uint8_t requests);

/* A confirmable GET of /r000, which is open. */
static const uint8_t GET[] = {0x44, 0x01, 0x00, 0x01, 1, 2, 3, 4, 0xb4, 'r', '0', '0', '0'};

static uint64_t no_call(void) { return 1; }
static uint64_t server_alone(void) { osc_bench_serve(0, 1, GET, sizeof GET, 0); return 1; }
static uint64_t server_of_1(void) { osc_bench_serve(1, 1, GET, sizeof GET, 0); return 1; }
static uint64_t server_of_1024(void) { osc_bench_serve(1024, 1, GET, sizeof GET, 0); return 1; }
static uint64_t get_once(void) { return osc_bench_serve(1, 1, GET, sizeof GET, 1); }
static uint64_t get_often(void) { return osc_bench_serve(1, 1, GET, sizeof GET, 1000); }
static uint64_t contexts_1(void) { osc_bench_serve_gets(1, 0); return 1; }
static uint64_t contexts_64(void) { osc_bench_serve_gets(64, 0); return 1; }
static uint64_t gets(void) { return osc_bench_serve_gets(1, 1000); }
static uint64_t posts(void) { return osc_bench_serve_posts(1, 1000); }
static uint64_t forgeries(void) { return osc_bench_serve_forged(1000); }
static uint64_t no_forgeries(void) { return osc_bench_serve_forged(0); }
static uint64_t asks(void) { return osc_bench_ask(1000); }
static uint64_t no_asks(void) { return osc_bench_ask(0); }
static uint64_t no_gets(void) { return osc_bench_serve_gets(1, 0); }
static uint64_t no_posts(void) { return osc_bench_serve_posts(1, 0); }
static uint64_t token_post(void) { return osc_bench_post(0, 1); }
static uint64_t client_alone(void) { osc_bench_client(0); return 1; }
static uint64_t client_posting(void) { return osc_bench_client(1); }
static uint64_t proxy_alone(void) { osc_bench_forward(0); return 1; }
static uint64_t proxy_1(void) { return osc_bench_forward(1); }
static uint64_t proxy_64(void) { return osc_bench_forward(64); }

static uint64_t (*asked)(void);
static uint64_t answer;

static void call_asked(void) { answer = asked(); }

static need measured(uint64_t (*of)(void)) {
    asked = of;
    need it = need_of(call_asked);
    if (it.left != 0) {
        fprintf(stderr, "needs: %zu bytes weren't given back\n", it.left);
        exit(1);
    }
    if (!answer) {
        fprintf(stderr, "needs: a call did not do what it was to do\n");
        exit(1);
    }
    return it;
}

/* ---- blocks taken by one call: by how many more a run of one round more takes, for each of 100 rounds behind the first 1,000 */

enum { WARM = 1000, COUNTED = 100 };

static uint64_t open_get(uint16_t rounds) { return osc_bench_serve(1, 1, GET, sizeof GET, rounds); }
static uint64_t protected_get(uint16_t rounds) { return osc_bench_serve_gets(1, rounds); }
static uint64_t protected_post(uint16_t rounds) { return osc_bench_serve_posts(1, rounds); }
static uint64_t ask(uint16_t rounds) { return osc_bench_ask(rounds); }

static size_t blocks_of(uint64_t (*of)(uint16_t), uint16_t rounds) {
    size_t before = blocks;
    if (!of(rounds)) {
        fprintf(stderr, "needs: a call did not do what it was to do\n");
        exit(1);
    }
    return blocks - before;
}

static int compare(const void *one, const void *other) {
    size_t a = *(const size_t *)one, b = *(const size_t *)other;
    return (a > b) - (a < b);
}

/* Most calls take the number in the middle; where others take more or fewer, the least and the greatest stand beside it. */
static void blocks_row(const char *name, uint64_t (*of)(uint16_t)) {
    size_t by[COUNTED];
    size_t before = blocks_of(of, WARM);
    for (uint16_t i = 0; i < COUNTED; i++) {
        size_t after = blocks_of(of, WARM + i + 1);
        by[i] = after - before;
        before = after;
    }
    qsort(by, COUNTED, sizeof by[0], compare);
    printf("%-52s %9zu blocks", name, by[COUNTED / 2]);
    if (by[0] != by[COUNTED - 1]) printf(", %zu to %zu", by[0], by[COUNTED - 1]);
    printf("\n");
}

/* What the rounds need of the stack, without the set-up: it is painted once as many blocks were taken as in a run without rounds. */
static size_t stack_behind(uint64_t (*set_up)(void), uint64_t (*of)(void)) {
    size_t before = blocks;
    set_up();
    size_t taken = blocks - before;
    paint_at = blocks + taken;
    size_t depth = measured(of).deep;
    paint_at = 0;
    return depth;
}

static void heap_row(const char *name, size_t bytes) { printf("%-52s %9zu bytes\n", name, bytes); }

int main(void) {
    size_t frame = measured(no_call).deep;
    need empty = measured(server_alone), one = measured(server_of_1), many = measured(server_of_1024);
    puts("Heap");
    heap_row("Server, without resources and contexts", empty.most);
    heap_row("for each open resource of 4 bytes, 1 of 1,024", (many.most - one.most) / 1023);
    heap_row("for each security context, 1 of 64", (measured(contexts_64).most - measured(contexts_1).most) / 63);
    heap_row("a GET, while it is served and noted", measured(get_once).most - one.most);
    heap_row("what 1,000 GETs leave for repeats, and the last", measured(get_often).most - one.most);
    heap_row("Client, with a token of 73 bytes", measured(client_alone).most);
    heap_row("its post, while it is open", measured(client_posting).most - measured(client_alone).most);
    heap_row("Proxy, of one target", measured(proxy_alone).most);
    heap_row("the first open exchange", measured(proxy_1).most - measured(proxy_alone).most);
    heap_row("for each open exchange, 1 of 64", (measured(proxy_64).most - measured(proxy_1).most) / 63);
    puts("Blocks of the heap");
    blocks_row("a GET that isn't protected", open_get);
    blocks_row("a protected GET", protected_get);
    blocks_row("a protected POST that appends", protected_post);
    blocks_row("a forged request", osc_bench_serve_forged);
    blocks_row("Client::ask", ask);
    puts("Stack");
    heap_row("Server::on_datagram, a GET that isn't protected", measured(get_once).deep - frame);
    heap_row("Server::on_datagram, protected GETs", measured(gets).deep - frame);
    heap_row("Server::on_datagram, protected POSTs", measured(posts).deep - frame);
    heap_row("the same, protected GETs behind the token's post", stack_behind(no_gets, gets) - frame);
    heap_row("the same, protected POSTs behind the token's post", stack_behind(no_posts, posts) - frame);
    heap_row("the same, forged requests behind the token's post", stack_behind(no_forgeries, forgeries) - frame);
    heap_row("ServerDesk::post", measured(token_post).deep - frame);
    heap_row("Client::exchange", measured(client_posting).deep - frame);
    heap_row("Client::ask", stack_behind(no_asks, asks) - frame);
    heap_row("Proxy::on_datagram", measured(proxy_64).deep - frame);
    return 0;
}
