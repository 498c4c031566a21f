/* A library in the place of libdnorm: the fixture `stand_in` says what it does. */
#define _GNU_SOURCE
#include <dlfcn.h>
#include <stdio.h>
#include <stdlib.h>
#include <unistd.h>

#include "dnorm.h"

static int number(const char *name) {
    const char *value = getenv(name);
    return value ? atoi(value) : 0;
}

static void note(const char *what) {
    FILE *log = getenv("LOG") ? fopen(getenv("LOG"), "a") : NULL;
    if (log) {
        fputs(what, log);
        fclose(log);
    }
}

dnorm_status dnorm_finish(dnorm *reader) {
    dnorm_status (*own)(dnorm *) = (dnorm_status(*)(dnorm *))dlsym(RTLD_NEXT, "dnorm_finish");
    dnorm_status status;
    note("+\n");
    usleep(1000u * (unsigned)number("WAIT"));
    note("-\n");
    status = own(reader);
    if (number("CODE"))
        status.code = (uint8_t)number("CODE");
    return status;
}
