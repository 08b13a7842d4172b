/* Does nothing: what a run costs. */
int main(void) { return 0; }
