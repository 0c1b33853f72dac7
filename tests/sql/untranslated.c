/* Texts without translation, for a server under a sanitizer: see tests/sql/postgresql. */
#include <libintl.h>

char *bindtextdomain(const char *domain, const char *folder) {
    (void)domain;
    return (char *)folder;
}

char *bind_textdomain_codeset(const char *domain, const char *codeset) {
    (void)domain;
    return (char *)codeset;
}

char *textdomain(const char *domain) { return (char *)domain; }
