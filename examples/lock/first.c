/* A device with one resource, and one datagram by hand. Its draws are fixed bytes, which no real device may have. */
#include <nozzlefern.h>
#include <stdio.h>

int main(void) {
    nzf_device_settings settings = NZF_DEVICE_SETTINGS;
    nzf_resource hello = NZF_RESOURCE;
    nzf_draw draw = {{2}}, other = {{5}};
    nzf_draws to_open = {{{3}}, {{4}}}, to_put = {{{6}}, {{7}}};
    nzf_peer from = nzf_ipv4(127, 0, 0, 1, 5700), to;
    const uint8_t get[] = {0x40, 0x01, 0x00, 0x01, 0xb1, 'e'}; /* a confirmable GET of /e */
    uint8_t bytes[NZF_DATAGRAM_MAX], four[4], code;
    nzf_size length;

    settings.key.bytes[0] = 1;
    settings.audience = nzf_text("door");
    settings.unprotected = nzf_text("/e:GET");
    settings.own = nzf_text("/e:PUT");
    hello.path = nzf_text("/e");
    hello.payload = nzf_text("hello");

    nzf_device door = {0};
    if (nzf_device_new(&door, &settings, &draw) != NZF_DONE) return 1;
    if (nzf_device_open(&door, 1000, &to_open, &code) != NZF_DONE) return 1;
    if (nzf_device_put(&door, 1000, &hello, &to_put, &code) != NZF_DONE) return 1;
    printf("put: %d.%02d\n", code >> 5, code & 31);

    if (nzf_device_on_datagram(&door, 2000, &from, get, sizeof get, &other) != NZF_DONE) return 1;
    while (nzf_device_next(&door, &to, bytes, sizeof bytes, &length) == NZF_DONE) {
        nzf_ipv4_of(&to, four);
        printf("to %d.%d.%d.%d:%d:", four[0], four[1], four[2], four[3], to.port);
        for (size_t at = 0; at < length; at++) printf(" %02x", bytes[at]);
        printf("\n");
    }
    nzf_device_free(&door);
    return 0;
}
