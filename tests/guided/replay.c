/*
 * Runs inputs of a fuzzer without libFuzzer:
 *
 *   replay TRIES FILE ..            each input once, and then so many that the mutator makes of them; the
 *                                   first that finds something ends the program
 *   replay --faults TRIES FILE ..   the same for each fault that can be put in: it has to be found
 */
#include "guided.h"

#include <stdio.h>
#include <stdlib.h>
#include <string.h>
#include <sys/resource.h>
#include <sys/wait.h>
#include <unistd.h>

enum { MOST = 1 << 20 };

size_t LLVMFuzzerMutate(uint8_t *data, size_t size, size_t most);
size_t LLVMFuzzerCustomMutator(uint8_t *data, size_t size, size_t most, unsigned seed);

static uint64_t seen_by_nobody; /* so that changes of single bytes are not always the same */

/* What libFuzzer has for the mutators: another byte. */
size_t LLVMFuzzerMutate(uint8_t *data, size_t size, size_t most)
{
    (void)most;
    seen_by_nobody = seen_by_nobody * UINT64_C(6364136223846793005) + 1;
    if (size > 0)
        data[(seen_by_nobody >> 33) % size] ^= (uint8_t)(1u << (seen_by_nobody >> 60 & 7));
    return size;
}

static size_t read_input(const char *name, uint8_t *bytes)
{
    FILE *file = fopen(name, "rb");
    if (file == NULL) {
        perror(name);
        exit(2);
    }
    size_t length = fread(bytes, 1, MOST, file);
    fclose(file);
    return length;
}

/* Runs bytes in memory of their own length. */
static void run(const uint8_t *bytes, size_t length)
{
    uint8_t *input = malloc(length + (length == 0));
    if (input == NULL)
        exit(2);
    memcpy(input, bytes, length);
    LLVMFuzzerTestOneInput(input, length);
    free(input);
}

static void run_all(unsigned tries, char **names, int count)
{
    static uint8_t bytes[MOST];
    for (int i = 0; i < count; i++)
        run(bytes, read_input(names[i], bytes));
    for (unsigned seed = 1; count > 0 && seed <= tries; seed++) {
        size_t length = read_input(names[seed % (unsigned)count], bytes);
        run(bytes, LLVMFuzzerCustomMutator(bytes, length, 4096, seed));
    }
}

/* Whether the fault is found; in a process of its own, which then ends. */
static int found(unsigned fault, unsigned tries, char **names, int count)
{
    int status = 0;
    pid_t child = fork();
    if (child == 0) {
        struct rlimit none = {0, 0};
        setrlimit(RLIMIT_CORE, &none);
        if (freopen("/dev/null", "w", stderr) == NULL)
            _exit(0);
        guided_put_fault(fault);
        run_all(tries, names, count);
        _exit(0);
    }
    if (child < 0 || waitpid(child, &status, 0) != child)
        exit(2);
    return !(WIFEXITED(status) && WEXITSTATUS(status) == 0);
}

static unsigned number_of(const char *word)
{
    return (unsigned)strtoul(word, NULL, 10);
}

int main(int count, char **words)
{
    unsigned failed = 0;
    LLVMFuzzerInitialize(&count, &words);
    if (count > 2 && strcmp(words[1], "--faults") == 0) {
        for (unsigned fault = 1; fault <= guided_faults; fault++)
            if (!found(fault, number_of(words[2]), words + 3, count - 3)) {
                printf("not found: fault %u, %s\n", fault, guided_fault_text(fault));
                failed++;
            }
        printf("%u passed, %u failed\n", guided_faults - failed, failed);
        return failed != 0;
    }
    if (count < 3)
        return 2;
    run_all(number_of(words[1]), words + 2, count - 2);
    printf("%u passed, 0 failed\n", (unsigned)count - 2 + number_of(words[1]));
    return 0;
}
