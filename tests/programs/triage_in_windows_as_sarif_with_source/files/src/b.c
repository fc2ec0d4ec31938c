
int b;
