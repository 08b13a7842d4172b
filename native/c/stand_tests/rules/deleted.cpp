// Uses an object that was deleted.
static volatile int *kept;
int main() {
    kept = new int(7);
    delete kept;
    return *kept;
}
