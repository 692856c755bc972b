// A plain program that copies its input: it reads it whole, holds it once, and writes it.
#include <stdlib.h>
#include <unistd.h>

int main(void) {
  size_t room = 65536, held = 0;
  char *bytes = malloc(room);
  for (ssize_t count; bytes && (count = read(0, bytes + held, room - held)) > 0;) {
    held += (size_t)count;
    if (held == room) bytes = realloc(bytes, room *= 2);
  }
  if (!bytes) return 1;
  for (size_t written = 0; written < held;) {
    ssize_t count = write(1, bytes + written, held - written);
    if (count < 0) return 1;
    written += (size_t)count;
  }
  return 0;
}
