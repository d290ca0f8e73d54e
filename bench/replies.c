// The least that is done with requests which change nothing: each is read, looked for in a hash table by its target, its body is
// compared, and the reply that was learned is written.
//
//     replies REQUESTS REPLIES   learns the replies to requests, which are in two files, and answers those on standard input
#define _GNU_SOURCE
#include <stdio.h>
#include <stdlib.h>
#include <string.h>

enum { SLOTS = 1 << 20 };

typedef struct { char *at; size_t length; } Text;
typedef struct { Text target, body, reply; } Known;

// A message: its head with the empty line, and behind that its body.
typedef struct { char *at; size_t room, head, length; } Message;

static Known *known[SLOTS];

static void end(const char *why) {
    fprintf(stderr, "replies: %s\n", why);
    exit(1);
}

static void make_room(Message *message, size_t wanted) {
    if (wanted <= message->room) return;
    message->room = wanted * 2;
    message->at = realloc(message->at, message->room);
    if (!message->at) end("no memory");
}

// Reads a message over the one before. Whether there is one.
static int read_message(FILE *from, Message *message) {
    static const char named[] = "Content-Length: ";
    static char *line;
    static size_t room;
    size_t body = 0;
    message->head = 0;
    for (;;) {
        ssize_t got = getline(&line, &room, from);
        if (got <= 0) return 0;
        make_room(message, message->head + got);
        memcpy(message->at + message->head, line, got);
        message->head += got;
        if (got == 2 && line[0] == '\r') break;
        if (!strncmp(line, named, sizeof named - 1)) body = strtoul(line + sizeof named - 1, 0, 10);
    }
    message->length = message->head + body;
    make_room(message, message->length);
    if (fread(message->at + message->head, 1, body, from) != body) end("a body is cut off");
    return 1;
}

// The target of a request.
static Text target_of(const Message *request) {
    char *space = memchr(request->at, ' ', request->head), *from = space ? space + 1 : request->at;
    char *to = memchr(from, ' ', request->head - (from - request->at));
    if (!to) end("a request without a target");
    return (Text){from, to - from};
}

static Text body_of(const Message *request) {
    return (Text){request->at + request->head, request->length - request->head};
}

static int are_equal(Text one, Text other) {
    return one.length == other.length && !memcmp(one.at, other.at, one.length);
}

// Where a target stands in the table, or may stand (FNV-1a).
static Known **slot_of(Text target) {
    unsigned long hash = 14695981039346656037ul;
    for (size_t i = 0; i < target.length; i++) hash = (hash ^ (unsigned char)target.at[i]) * 1099511628211ul;
    size_t slot = hash % SLOTS;
    while (known[slot] && !are_equal(known[slot]->target, target)) slot = (slot + 1) % SLOTS;
    return &known[slot];
}

static Text copied(Text text) {
    char *at = malloc(text.length + 1);
    if (!at) end("no memory");
    memcpy(at, text.at, text.length);
    return (Text){at, text.length};
}

// Learns the replies to these requests, by their targets.
static void learn(FILE *requests, FILE *replies) {
    Message request = {0}, reply = {0};
    if (!requests || !replies) end("there is no such file");
    for (size_t count = 0; read_message(requests, &request); count++) {
        if (count == SLOTS / 2) end("too many requests");
        if (!read_message(replies, &reply)) end("too few replies");
        Known **slot = slot_of(target_of(&request));
        if (!*slot && !(*slot = calloc(1, sizeof **slot))) end("no memory");
        **slot = (Known){copied(target_of(&request)), copied(body_of(&request)), copied((Text){reply.at, reply.length})};
    }
}

int main(int count, char **words) {
    Message request = {0};
    if (count != 3) end("two files are wanted");
    learn(fopen(words[1], "rb"), fopen(words[2], "rb"));
    while (read_message(stdin, &request)) {
        Known *found = *slot_of(target_of(&request));
        if (!found || !are_equal(found->body, body_of(&request))) end("nothing was learned for a request");
        fwrite(found->reply.at, 1, found->reply.length, stdout);
    }
    return fflush(stdout) ? 1 : 0;
}
