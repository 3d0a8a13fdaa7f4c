/* A reader that gives one newline at each read, for ever. */

long read(int file, char *buffer, unsigned long size)
{
    if (size == 0)
        return 0;
    *buffer = '\n';
    return 1;
}
