// Prints vectors of SplitMix64's mixing step: a line for each, with an input, a blank and the output for it, both as
// decimal numbers of 64 bits. The outputs are those of java.util.SplittableRandom, which adds GAMMA to its seed and mixes
// the sum; nothing here mixes.
import java.util.LinkedHashSet;
import java.util.Set;
import java.util.SplittableRandom;

public final class MixVectors {
    private static final int COUNT = 2_048;
    private static final long GAMMA = 0x9e3779b97f4a7c15L;
    private static final long SEED = 20_480L;

    private final Set<Long> inputs = new LinkedHashSet<>();

    // A seed that the addition of GAMMA takes to the input.
    private static long output(long input) {
        return new SplittableRandom(input - GAMMA).nextLong();
    }

    private void addSmallNumbers() {
        for (long number = 0; number < 256; number++) {
            inputs.add(number);
        }
    }

    private void addLargestNumbers() {
        for (long number = -1; number >= -16; number--) {
            inputs.add(number);
        }
    }

    // Each power of two, and its neighbours.
    private void addPowersOfTwo() {
        for (int bit = 0; bit < Long.SIZE; bit++) {
            long power = 1L << bit;
            inputs.add(power);
            inputs.add(power - 1);
            inputs.add(power + 1);
        }
    }

    // All bits but one.
    private void addGaps() {
        for (int bit = 0; bit < Long.SIZE; bit++) {
            inputs.add(~(1L << bit));
        }
    }

    // One byte set, and all but one.
    private void addBytes() {
        for (int bit = 0; bit < Long.SIZE; bit += Byte.SIZE) {
            inputs.add(0xffL << bit);
            inputs.add(~(0xffL << bit));
        }
    }

    private void addPatterns() {
        inputs.add(GAMMA);
        inputs.add(-GAMMA);
        inputs.add(0xaaaaaaaaaaaaaaaaL);
        inputs.add(0x5555555555555555L);
        inputs.add(0x00000000ffffffffL);
        inputs.add(0xffffffff00000000L);
        inputs.add(0x0123456789abcdefL);
        inputs.add(0xfedcba9876543210L);
    }

    // The numbers of stream labels: port, channel and session at their least, in the middle and at their greatest.
    private void addStreams() {
        long[] bytes = {0, 1, 127, 128, 255};
        long[] channels = {0, 1, 255, 256, 32_767, 32_768, 65_535};
        for (long port : bytes) {
            for (long channel : channels) {
                for (long session : bytes) {
                    inputs.add((port << 24) + (channel << 8) + session);
                }
            }
        }
    }

    // Fills up with numbers that look random, and are the same in each run.
    private void addUntilFull() {
        SplittableRandom random = new SplittableRandom(SEED);
        while (inputs.size() < COUNT) {
            inputs.add(random.nextLong());
        }
    }

    private String lines() {
        StringBuilder text = new StringBuilder();
        for (long input : inputs) {
            text.append(Long.toUnsignedString(input)).append(' ');
            text.append(Long.toUnsignedString(output(input))).append('\n');
        }
        return text.toString();
    }

    public static void main(String[] arguments) {
        MixVectors vectors = new MixVectors();
        vectors.addSmallNumbers();
        vectors.addLargestNumbers();
        vectors.addPowersOfTwo();
        vectors.addGaps();
        vectors.addBytes();
        vectors.addPatterns();
        vectors.addStreams();
        vectors.addUntilFull();
        System.out.print(vectors.lines());
    }
}
