/* C functions with ACSL contracts, proved over the real numbers:
   frama-c -wp -wp-model real -wp-prover dpoly control.c
   What floating point adds to these bounds is another question: see docs/WHY3.md. */

/* A polynomial controller: its command stays within what the actuator has. */
/*@ requires -1.0 <= x <= 1.0 && -1.0 <= w <= 1.0;
    assigns \nothing;
    ensures -1.95 <= \result <= 1.95; */
double controller(double x, double w) {
    return -1.2 * x - 0.4 * w - 0.3 * x * x * x;
}

/* Horner's rule: the value is that of the sum of powers, and lies in its range. */
/*@ requires 0.0 <= x <= 1.0;
    assigns \nothing;
    ensures 0.99 <= \result <= 1.41;
    ensures \abs(\result - (0.5 * x * x * x - 0.3 * x * x + 0.2 * x + 1.0)) <= 0.0001; */
double horner(double x) {
    double y = 0.5;
    y = y * x - 0.3;
    y = y * x + 0.2;
    return y * x + 1.0;
}

/* A saturated filter: each step is limited, and the state stays in its band. */
/*@ requires \abs(y) <= 2.0 && \abs(u) <= 2.0;
    assigns \nothing;
    ensures \abs(\result) <= 2.001;
    ensures \abs(\result - y) <= 0.1001; */
double filter(double y, double u) {
    double d = 0.25 * (u - y);
    if (d > 0.1) d = 0.1;
    if (d < -0.1) d = -0.1;
    return y + d;
}

/*@ requires low <= high && -100.0 <= low && high <= 100.0 && -1000.0 <= x <= 1000.0;
    assigns \nothing;
    ensures low - 0.001 <= \result <= high + 0.001; */
double clamp(double low, double high, double x) {
    if (x < low) return low;
    if (x > high) return high;
    return x;
}

/* Braking: reaction and braking distance of a car within its limits. */
/*@ requires 0.0 <= v <= 30.0 && 6.0 <= a <= 9.0 && 0.0 <= t <= 1.5;
    assigns \nothing;
    ensures 0.0 <= \result + 0.001 && \result <= 120.001; */
double stop_distance(double v, double a, double t) {
    return v * t + v * v / (2.0 * a);
}

/* Between two values lies nothing below the least nor above the greatest. */
/*@ requires \abs(a) <= 1.0 && \abs(b) <= 1.0 && 0.0 <= t <= 1.0;
    assigns \nothing;
    ensures \min(a, b) - 0.02 <= \result <= \max(a, b) + 0.02; */
double between(double a, double b, double t) {
    return a + t * (b - a);
}

/* The sine's polynomial of degree 5 stays within 1, and grows with x. */
/*@ requires -1.5 <= x <= 1.5;
    assigns \nothing;
    ensures -1.01 <= \result <= 1.01;
    ensures x >= 0.1 ==> \result >= 0.09; */
double sine(double x) {
    double s = x * x;
    return x * (1.0 - s * (1.0 / 6.0 - s / 120.0));
}

/* Softsign, whose divisor is never below 1. */
/*@ requires \abs(x) <= 10.0;
    assigns \nothing;
    ensures \abs(\result) <= 0.92; */
double softsign(double x) {
    double size = x < 0.0 ? -x : x;
    return x / (1.0 + size);
}

/* A pointer, and a call of which the contract is all that is known. */
/*@ requires \valid(state) && \abs(*state) <= 1.0 && \abs(reference) <= 0.5;
    assigns *state;
    ensures \abs(*state) <= 1.001; */
void step(double *state, double reference) {
    double u = clamp(-0.3, 0.3, 0.8 * (reference - *state));
    *state = 0.9 * *state + 0.3 * u;
}

/*@ assigns \result \from \nothing;
    ensures 0.0 <= \result <= 1.0; */
double sensor(void);

/* A loop with an invariant: an average of samples stays near their range. What a step draws together is the room that the
   invariant has. */
/*@ requires 0 <= n <= 1000;
    assigns \nothing;
    ensures -0.011 <= \result <= 1.011; */
double average(int n) {
    double mean = 0.5;
    int i = 0;
    /*@ loop invariant 0 <= i <= n;
        loop invariant -0.01 <= mean <= 1.01;
        loop assigns i, mean;
        loop variant n - i; */
    while (i < n) {
        mean = 0.875 * mean + 0.125 * sensor();
        i++;
    }
    return mean;
}
