/* Lets a program go on when it flushes a file to the disk, so that a test of many files takes less time.

       cc -O1 -shared -fPIC -o skip_flushes.so skip_flushes.c
       LD_PRELOAD=./skip_flushes.so PROGRAM .. */

int fsync(int file)
{
    (void)file;
    return 0;
}

int fdatasync(int file)
{
    (void)file;
    return 0;
}
