/* The version of the library, and outcomes in English. */
#include "nozzlefern.h"

uint32_t nzf_version(void) { return NZF_VERSION; }

const char *nzf_outcome_text(int32_t outcome) {
    switch (outcome) {
    case NZF_DONE: return "it is done";
    case NZF_TOO_SHORT: return "a buffer is too short";
    case NZF_NO_MEMORY: return "there is no memory";
    case NZF_TOO_LONG: return "it is longer than a datagram or a token may be";
    case NZF_BUSY: return "something is open already";
    case NZF_EXHAUSTED: return "the numbers of the security context are used up";
    case NZF_NO_CONTEXT: return "there is no security context";
    case NZF_BAD_SCOPE: return "the text is no scope";
    case NZF_NOTHING: return "there is none";
    case NZF_BAD_ARGUMENT: return "an argument is out of its range";
    case NZF_LOST: return "there was no memory on the way, and a tick goes on";
    case NZF_UNVERIFIED: return "it ended without a protected answer";
    case NZF_NOT_NOW: return "the proxy has heard something already";
    case NZF_REFUSED: return "it was answered, and refused";
    case NZF_NOT_KEPT: return "what a step changed isn't kept";
    default: return "no outcome of the library";
    }
}
