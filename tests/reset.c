/* Runs a command whose standard input gives some bytes, then fails once, and is at its end from then on: reset HEX COMMAND ARGUMENT..
   A local socket does so (ECONNRESET) if its other end was closed while a byte for that end had not been read. */
#include <stdio.h>
#include <sys/socket.h>
#include <unistd.h>

int main(int argc, char **argv)
{
    int ends[2];
    unsigned char bytes[64];
    size_t n = 0;
    if (argc < 3)
        return 2;
    for (const char *hex = argv[1]; n < sizeof bytes && sscanf(hex, "%2hhx", &bytes[n]) == 1; hex += 2)
        n++;
    if (socketpair(AF_UNIX, SOCK_STREAM, 0, ends) != 0 || write(ends[0], "", 1) != 1 || write(ends[1], bytes, n) != (ssize_t)n) {
        perror("reset");
        return 2;
    }
    close(ends[1]);
    dup2(ends[0], STDIN_FILENO);
    close(ends[0]);
    execvp(argv[2], argv + 2);
    perror(argv[2]);
    return 2;
}
