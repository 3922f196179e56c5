#include "list.h"
char *list = malloc(count * (size + 1));
copy(f(x, ','), to[0]);
log("no (\n");
UNUSED(left);
cat = cat_of(cat, cats);
