/* Changes a folder while a program lists it, as a mail reader at work does.

       cc -O1 -shared -fPIC -o restless.so restless.c -ldl
       RESTLESS_FILE=new/x RESTLESS_TIMES=3 LD_PRELOAD=./restless.so PROGRAM ..

   At each of the first three calls, here, that read names of a folder, whichever it is, the file of RESTLESS_FILE is
   made and removed again. Without RESTLESS_TIMES it is at each call. */

#include "preloaded.h"
#include <dirent.h>

ssize_t getdents64(int descriptor, void *names, size_t size)
{
    NEXT(getdents64);
    static long calls_seen = 0;
    const char *path = getenv("RESTLESS_FILE");
    ssize_t answer = next(descriptor, names, size);

    if (path && calls_seen++ < number_in("RESTLESS_TIMES", LONG_MAX))
        make_briefly(path);
    return answer;
}
