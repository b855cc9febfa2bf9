/* Times the shapes of shapes.h at the nodes that hear them, beside an open GET, the first one of its resource, in the same run: each as it is, with its last byte turned into 0xff, and
   without its last byte. Status 1 where one call takes more than TIMES times the median of the GET. */
#include "hearing.h"
#include "shapes.h"

enum { ROUNDS = 400, RUNS = 5, FORMS = 3 };

/* The least time of each call, of the GET and of each form of a shape. */
static uint32_t get_least[ROUNDS], shape_least[MOST_SHAPES][FORMS][ROUNDS];
static uint64_t answers[MOST_SHAPES];

/* One run of so many calls, after one that isn't counted, since it finds its code and data in no cache; what took less than in the runs before is kept. */
static uint64_t timed(int ear, const uint8_t *bytes, size_t length, uint32_t kept[ROUNDS]) {
    uint64_t code = measure(ear, bytes, length, ROUNDS + 1, 1);
    for (int i = 0; i < ROUNDS; i++)
        if (least[i + 1] < kept[i]) kept[i] = least[i + 1];
    return code;
}

/* One run of each shape: the runs of one are apart, since other work on the machine may last for a while. */
static void run_of_all(void) {
    measure_get(ROUNDS, 1);
    for (int i = 0; i < ROUNDS; i++)
        if (least[i] < get_least[i]) get_least[i] = least[i];
    for (size_t i = 0; i < shape_count; i++) {
        const shape *it = &shapes[i];
        uint8_t bytes[LIMIT];
        memcpy(bytes, it->bytes, it->length);
        bytes[it->length - 1] = 0xff;
        answers[i] = timed(it->ear, it->bytes, it->length, shape_least[i][0]);
        timed(it->ear, bytes, it->length, shape_least[i][1]);
        timed(it->ear, it->bytes, it->length - 1, shape_least[i][2]);
    }
}

static count counted_of(const uint32_t kept[ROUNDS]) {
    memcpy(least, kept, sizeof least[0] * ROUNDS);
    return counted(ROUNDS);
}

int main(void) {
    setvbuf(stdout, NULL, _IOLBF, 0);
    find_overhead();
    make_shapes();
    memset(get_least, 0xff, sizeof get_least);
    memset(shape_least, 0xff, sizeof shape_least);
    for (int run = 0; run < RUNS; run++) run_of_all();
    count get = counted_of(get_least);
    printf("Shapes of datagrams: each is heard %d times under message IDs of its own, and a call's time is the least of %d runs, less the clock's %u ns. How many bytes it has and what "
        "it is answered; in ns the median and the most of its calls; and the most as a multiple of the GET's median, of the datagram as it is, with its last byte turned into 0xff, and without "
        "its last byte.\n\n", ROUNDS, RUNS, (unsigned)overhead);
    printf("%-70s %5s %7s %7s %7s %6s %6s %6s\n", "", "bytes", "answer", "median", "most", "times", "0xff", "short");
    printf("%-70s %5zu %7s %7u %7u\n", "an open GET", sizeof OPEN_GET, "2.05", get.median, get.most);
    double worst = 0;
    for (size_t i = 0; i < shape_count; i++) {
        const shape *it = &shapes[i];
        char text[CODE_TEXT];
        double times[FORMS];
        if (i == 0 || shapes[i - 1].ear != it->ear) printf("%s\n", WHO[it->ear]);
        for (int form = 0; form < FORMS; form++) {
            times[form] = (double)counted_of(shape_least[i][form]).most / get.median;
            if (times[form] > worst) worst = times[form];
        }
        count as_it_is = counted_of(shape_least[i][0]);
        printf("%-70s %5zu %7s %7u %7u %6.1f %6.1f %6.1f%s\n", it->name, it->length, code_text(answers[i], text), as_it_is.median, as_it_is.most, times[0], times[1], times[2],
            times[0] > TIMES || times[1] > TIMES || times[2] > TIMES ? " too long" : "");
    }
    printf("shapes: the dearest call takes %.1f times an open GET; it may take %d times\n", worst, TIMES);
    return worst > TIMES;
}
