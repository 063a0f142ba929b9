/* Writes to address 16, where nothing is: a guest that goes astray, to see what tools/why says of it. */
int main(void) {
    *(volatile unsigned int *)16 = 1;
    return 0;
}
