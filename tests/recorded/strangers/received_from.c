/* What calls give back in memory of their caller, or in that of all callers: who sent a message, timers, names of new
 * files, what is known of users and hosts, and where a number ends. Another thread reads it. */
#define _GNU_SOURCE
#include <netdb.h>
#include <pthread.h>
#include <pwd.h>
#include <signal.h>
#include <stdio.h>
#include <stdlib.h>
#include <sys/ioctl.h>
#include <sys/socket.h>
#include <sys/time.h>
#include <sys/timerfd.h>
#include <sys/uio.h>
#include <sys/un.h>
#include <time.h>
#include <unistd.h>
#include <wchar.h>
static struct sockaddr_un sender, other_sender, address = {.sun_family = AF_UNIX, .sun_path = "\0from"};
static socklen_t size = sizeof sender;
static int from_socket, to_socket, clock_file;
static struct itimerval interval, no_interval;
static struct itimerspec left, left_of_file, was, was_of_file, nothing;
static timer_t timer, other_timer;
static char file[32] = "/tmp/strangersXXXXXX", folder[32] = "/tmp/strangersXXXXXX", room[1024];
static struct passwd user, *found;
static int waiting;
static wchar_t number[8] = L"12 34", *end;
static __thread volatile long n;

static void receives(void) {
    char letters[4];
    struct iovec piece = {letters, sizeof letters};
    struct msghdr message = {&other_sender, sizeof other_sender, &piece, 1, NULL, 0, 0};
    n += recvfrom(to_socket, letters, 4, 0, (struct sockaddr *)&sender, &size); /* RACE a */
    n += recvmsg(to_socket, &message, 0); /* RACE b */
}

static void *calls(void *p) {
    struct sigevent no_signal = {.sigev_notify = SIGEV_NONE};
    n += ioctl(to_socket, FIONREAD, &waiting); /* RACE m */
    receives();
    n += setitimer(ITIMER_VIRTUAL, &no_interval, &interval); /* RACE c */
    n += timer_create(CLOCK_MONOTONIC, &no_signal, &timer); /* RACE d */
    n += timer_gettime(other_timer, &left); /* RACE e */
    n += timer_settime(other_timer, 0, &nothing, &was); /* RACE f */
    n += timerfd_gettime(clock_file, &left_of_file); /* RACE g */
    n += timerfd_settime(clock_file, 0, &nothing, &was_of_file); /* RACE h */
    if (mkstemp(file) < 0) abort(); /* RACE i */
    if (!mkdtemp(folder)) abort(); /* RACE j */
    n += getpwuid_r(0, &user, room, sizeof room, &found); /* RACE k */
    n += wcstol(number, &end, 10); /* RACE l */
    n += getpwuid(0) != NULL; /* RACE o */
    n += gethostbyname("127.0.0.1") != NULL; /* RACE p */
    return p;
}

static void *uses(void *p) {
    n += sender.sun_family + (long)size; /* RACE a */
    n += other_sender.sun_path[1]; /* RACE b */
    n += interval.it_value.tv_sec; /* RACE c */
    n += timer != NULL; /* RACE d */
    n += left.it_value.tv_sec; /* RACE e */
    n += was.it_value.tv_sec; /* RACE f */
    n += left_of_file.it_value.tv_sec; /* RACE g */
    n += was_of_file.it_value.tv_sec; /* RACE h */
    n += file[19]; /* RACE i */
    n += folder[14]; /* RACE j */
    n += found != NULL; /* RACE k */
    number[2] = L' '; /* RACE l */
    n += end != NULL; /* RACE l */
    n += waiting; /* RACE m */
    n += getpwuid(0)->pw_uid; /* RACE o */
    n += gethostbyname("127.0.0.1")->h_length; /* RACE p */
    number[3] = L'3';
    return p;
}

int main(void) {
    pthread_t t[2];
    from_socket = socket(AF_UNIX, SOCK_DGRAM, 0), to_socket = socket(AF_UNIX, SOCK_DGRAM, 0);
    struct sockaddr_un to = address;
    snprintf(address.sun_path + 1, 20, "from%d", (int)getpid()), snprintf(to.sun_path + 1, 20, "to%d", (int)getpid());
    if (bind(from_socket, (struct sockaddr *)&address, sizeof address)) abort();
    if (bind(to_socket, (struct sockaddr *)&to, sizeof to)) abort();
    for (int k = 0; k < 2; k++)
        if (sendto(from_socket, "a", 1, 0, (struct sockaddr *)&to, sizeof to) != 1) abort();
    if (timer_create(CLOCK_MONOTONIC, &(struct sigevent){.sigev_notify = SIGEV_NONE}, &other_timer)) abort();
    clock_file = timerfd_create(CLOCK_MONOTONIC, 0);
    pthread_create(&t[0], NULL, calls, NULL);
    pthread_create(&t[1], NULL, uses, NULL);
    for (int k = 0; k < 2; k++) pthread_join(t[k], NULL);
    printf("%d %d %ls\n", sender.sun_family, found != NULL, end);
    unlink(file), rmdir(folder);
    return 0;
}
