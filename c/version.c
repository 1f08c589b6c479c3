/* What an installed library says of itself. package/install compiles this into it, with the version of the file VERSION
 * and the processors that the library was built for. It is not proved: it only returns two words. */
#include <der.h>

const char *der_version(void) { return DER_VERSION; }

const char *der_processor(void) { return DER_PROCESSOR; }
