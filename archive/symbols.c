/* What of the archive is not Rattle: its version, and the calls that the headers have in line, as symbols for other languages.
 * It decides nothing: the texts and lumbixet_wake are the headers' own. */
#include "lumbixet.h"

const char lumbixet_version_text[] = LUMBIXET_VERSION_TEXT;
const char LUMBIXET_ARCHIVE_IS_OF(LUMBIXET_VERSION_MAJOR, LUMBIXET_VERSION_MINOR) = 0;

uint32_t lumbixet_version(void)
{
    return LUMBIXET_VERSION;
}

extern inline uint64_t lumbixet_wake(const lumbixet_receiver *receiver);
extern inline const char *lumbixet_refusal_text(uint64_t result);
extern inline const char *lumbixet_cause_text(uint64_t cause);
