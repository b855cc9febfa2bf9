/* A program with each call of nozzlefern.h on the nodes that are named: -DDEVICE alone, or -DDEVICE -DCLIENT -DPROXY. */
#include <nozzlefern.h>

typedef void (*any)(void);

static any const CALLS[] = {
#ifdef DEVICE
    (any)nzf_device_new,    (any)nzf_device_open,    (any)nzf_device_put,           (any)nzf_device_append, (any)nzf_device_remove,
    (any)nzf_device_get,    (any)nzf_device_next,    (any)nzf_device_next_deadline, (any)nzf_device_served, (any)nzf_device_refused,
    (any)nzf_device_learnt, (any)nzf_device_on_tick, (any)nzf_device_on_datagram,    (any)nzf_device_restart, (any)nzf_device_free,
    (any)nzf_device_revoke, (any)nzf_device_allow,   (any)nzf_device_new_with,      (any)nzf_device_changed, (any)nzf_device_keep,
    (any)nzf_device_keeps,  (any)nzf_device_kept,
#endif
#ifdef CLIENT
    (any)nzf_client_new,     (any)nzf_client_exchange, (any)nzf_client_ask,           (any)nzf_client_on_datagram, (any)nzf_client_result,
    (any)nzf_client_on_tick, (any)nzf_client_next,     (any)nzf_client_next_deadline, (any)nzf_client_context,     (any)nzf_client_restart,
    (any)nzf_client_free,
#endif
#ifdef PROXY
    (any)nzf_proxy_new,  (any)nzf_proxy_add_target,    (any)nzf_proxy_on_datagram, (any)nzf_proxy_on_tick,
    (any)nzf_proxy_next, (any)nzf_proxy_next_deadline, (any)nzf_proxy_restart,     (any)nzf_proxy_free, (any)nzf_proxy_set_outstanding,
#endif
    (any)0,
};

/* The linker can't know which is called. */
int main(int count, char **words) {
    (void)words;
    any volatile it = CALLS[count];
    if (it) it();
    return 0;
}
