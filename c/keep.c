/* What a device's steps change, kept by a function of its owner. */
#include "nozzlefern.h"

int32_t nzf_device_keep(nzf_device *device, nzf_keep keep, void *context) {
    uint8_t bytes[NZF_PATH_MAX + NZF_PAYLOAD_MAX];
    nzf_change it = NZF_CHANGE;
    int32_t number = nzf_device_keeps(device);
    if (number != NZF_DONE) return number;
    number = nzf_device_changed(device, &it, bytes, sizeof bytes);
    if (number == NZF_NOTHING || (number == NZF_DONE && !it.waits)) return NZF_DONE;
    if (number != NZF_DONE) return number;
    const void *payload = it.is_there ? bytes + it.path_length : NULL;
    int is_kept = keep(context, bytes, it.path_length, payload, it.payload_length, it.format) == 0;
    number = nzf_device_kept(device, is_kept ? 1 : 0);
    return is_kept ? number : NZF_NOT_KEPT;
}
