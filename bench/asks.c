// Asks a server for one file over N connections at once, each on a thread, as often as it can, and looks at every answer.
//
//   asks PORT TARGET GET|HEAD CONNECTIONS SECONDS PAUSE FILE
//
// PAUSE is how long a connection waits after an answer, in milliseconds; FILE has the bytes that are asked for. Prints how many
// answers came, how many of them were others than expected, the seconds that it took, and the longest wait for an answer.
#include <arpa/inet.h>
#include <netinet/tcp.h>
#include <pthread.h>
#include <stdio.h>
#include <stdlib.h>
#include <string.h>
#include <strings.h>
#include <time.h>
#include <unistd.h>

static int port, body;
static double until;
static useconds_t pause_of;
static char request[2048], *wanted;
static long length;

struct Asker { pthread_t thread; long answers, wrong; double longest; };

static double now(void) {
    struct timespec t;
    clock_gettime(CLOCK_MONOTONIC, &t);
    return t.tv_sec + t.tv_nsec / 1e9;
}

static int connected(void) {
    struct sockaddr_in to = {.sin_family = AF_INET, .sin_port = htons(port), .sin_addr.s_addr = htonl(INADDR_LOOPBACK)};
    int link = socket(AF_INET, SOCK_STREAM, 0), one = 1;
    setsockopt(link, IPPROTO_TCP, TCP_NODELAY, &one, sizeof one);
    if (connect(link, (struct sockaddr *)&to, sizeof to) != 0) { perror("connect"); exit(2); }
    return link;
}

// Sends the request, and reads its answer. Whether it is a 200 with the bytes that are wanted, and whether the connection goes on.
static int ask(int link, char *got, int *goes_on) {
    long have = 0, head = 0, more;
    *goes_on = 0;
    if (write(link, request, strlen(request)) != (ssize_t)strlen(request)) return 0;
    while (!head || have < head + (body ? length : 0)) {
        if ((more = read(link, got + have, 8191 + length - have)) <= 0) return 0;
        have += more;
        got[have] = 0;
        char *end = head ? NULL : strstr(got, "\r\n\r\n");
        if (end) head = end + 4 - got;
    }
    char field[64];
    snprintf(field, sizeof field, "Content-Length: %ld\r\n", length);
    int right = strncmp(got, "HTTP/1.1 200 ", 13) == 0 && have == head + (body ? length : 0) && memcmp(got + head, wanted, have - head) == 0;
    got[head - 1] = 0;
    *goes_on = !strcasestr(got, "\r\nConnection: close");
    return right && strcasestr(got, field) != NULL;
}

static void *work(void *it) {
    struct Asker *self = it;
    char *got = malloc(8192 + length);
    int link = -1, goes_on;
    for (double begun; (begun = now()) < until;) {
        if (link < 0) link = connected();
        self->wrong += !ask(link, got, &goes_on);
        self->answers++;
        if (now() - begun > self->longest) self->longest = now() - begun;
        if (!goes_on) { close(link); link = -1; }
        if (pause_of) usleep(pause_of);
    }
    if (link >= 0) close(link);
    return NULL;
}

int main(int count, char **words) {
    if (count != 8) return 2;
    FILE *file = fopen(words[7], "rb");
    if (!file || fseek(file, 0, SEEK_END) != 0 || (length = ftell(file)) < 0) return 2;
    rewind(file);
    wanted = malloc(length + 1);
    if (fread(wanted, 1, length, file) != (size_t)length) return 2;
    port = atoi(words[1]);
    body = strcmp(words[3], "HEAD") != 0;
    snprintf(request, sizeof request, "%s %s HTTP/1.1\r\nHost: x\r\n\r\n", words[3], words[2]);
    int links = atoi(words[4]);
    double begun = now();
    until = begun + atof(words[5]);
    pause_of = atof(words[6]) * 1000;
    struct Asker *askers = calloc(links, sizeof *askers), all = {0};
    for (int i = 0; i < links; i++) pthread_create(&askers[i].thread, NULL, work, &askers[i]);
    for (int i = 0; i < links; i++) {
        pthread_join(askers[i].thread, NULL);
        all.answers += askers[i].answers;
        all.wrong += askers[i].wrong;
        if (askers[i].longest > all.longest) all.longest = askers[i].longest;
    }
    printf("%ld %ld %.3f %.3f\n", all.answers, all.wrong, now() - begun, all.longest);
    return all.wrong != 0;
}
