/* Counts the triples of the N-Triples document on standard input by the reader of serd alone, which writes nothing. */
#include <serd/serd.h>
#include <stdio.h>

static SerdStatus count(void *handle, SerdStatementFlags flags, const SerdNode *graph, const SerdNode *subject, const SerdNode *predicate,
                        const SerdNode *object, const SerdNode *datatype, const SerdNode *language) {
  ++*(unsigned long *)handle;
  return SERD_SUCCESS;
}

int main(void) {
  unsigned long triples = 0;
  SerdReader *reader = serd_reader_new(SERD_NTRIPLES, &triples, NULL, NULL, NULL, count, NULL);
  SerdStatus status = serd_reader_read_file_handle(reader, stdin, (const uint8_t *)"standard input");
  serd_reader_free(reader);
  printf("%lu triples\n", triples);
  return status != SERD_SUCCESS;
}
