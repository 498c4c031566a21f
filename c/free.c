/* dnorm_free, which takes null, as free does: the proved function takes a `dnorm`. */
#include "dnorm.h"

__attribute__((visibility("hidden"))) void dnorm_release(dnorm *any);

void dnorm_free(dnorm *any) {
    if (any) dnorm_release(any);
}
