/* The headers whose declarations src/bindings.rs has. */
#include "../../c/jdoc.h"
#include "../../text/jdoc_text.h"
