/* Parses N-Quads from standard input with serd's library, keeps nothing, and prints the number of statements.
   Needs libserd-dev. */
#include <inttypes.h>
#include <serd/serd.h>
#include <stdio.h>

static SerdStatus count(void *handle, SerdStatementFlags flags, const SerdNode *graph, const SerdNode *subject,
                        const SerdNode *predicate, const SerdNode *object, const SerdNode *datatype,
                        const SerdNode *language) {
    (void)flags, (void)graph, (void)subject, (void)predicate, (void)object, (void)datatype, (void)language;
    ++*(uint64_t *)handle;
    return SERD_SUCCESS;
}

int main(void) {
    uint64_t statements = 0;
    SerdReader *reader = serd_reader_new(SERD_NQUADS, &statements, NULL, NULL, NULL, count, NULL);
    SerdStatus status = serd_reader_read_file_handle(reader, stdin, (const uint8_t *)"input");
    serd_reader_free(reader);
    printf("%" PRIu64 " statements\n", statements);
    return status != SERD_SUCCESS;
}
