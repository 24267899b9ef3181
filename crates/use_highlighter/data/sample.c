// A <first> line & more
int main(void) { return 42 + x1; /* "é" */ }
char *s = "a \"quoted\" // text";
