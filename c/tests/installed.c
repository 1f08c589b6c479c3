/* installed says of which version an installed library is, and for which processors, and ends with 1 where the header
 * is of another version. */
#include <der.h>

#include <stdio.h>

#if DER_VERSION_NUMBER < 200
#error "the calls of this header came with 0.2.0"
#endif

int main(void) {
  printf("%s for %s\n", der_version(), der_processor());
  return strcmp(der_version(), DER_VERSION) != 0;
}
