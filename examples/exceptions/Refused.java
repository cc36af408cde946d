/** A payment was refused: so much was missing. */
class Refused extends Exception {
    int missing;

    Refused(int missing) {
        this.missing = missing;
    }
}
