\\ Computes with PARI what the library answered, for the calls that the driver writes: isogeny for each kernel, then goes for points through that
\\ isogeny, composed for two kernels after the isogeny that is to be made of them, chained for three from either side, beyond for certificates that
\\ question 4 alone refuses, parts for the N of any g, name for curves, permitted for primes, and finish with how many of each there must have been; a
\\ call counts when it has come to its end, so that an error shows there. The last line is the verdict.

differences = 0;
isogenies = points = infinities = compositions = chains = refused = sums = names = numbers = 0;

differs(what) = {
  differences++;
  if (differences <= 10, print("DIFFERENCE: ", what));
};

\\ The terms of source 001's formula (13) with its quotients, each times D.
terms(a, b, l, sigma, G) = {
  my(D = G^2, L = deriv(D) / D);
  [(l * x - sigma) * D, -(3 * x^2 + a) * L * D, -2 * (x^3 + a * x + b) * deriv(L) * D];
};

\\ Whether two polynomials have no factor of degree 1 or more in common: by their greatest common divisor, and as multiples of them have the sum 1.
coprime(G, H) = {
  my([u, v, d] = bezout(G, H));
  poldegree(gcd(G, H)) == 0 && poldegree(d) == 0 && u / d * G + v / d * H == 1;
};

\\ Numerator and denominator in lowest terms, the denominator monic.
reduced(R) = my(D = denominator(R), c = pollead(D)); [numerator(R) / c, D / c];

\\ Request E12 for the domain's f.
free(F, G, N, l) = {
  if (!issquarefree(G) || !coprime(G, deriv(G)), differs(["g is repeated", here]));
  if (!coprime(G, F), differs(["g and f", here]));
  if (!coprime(G, N), differs(["g and N", here]));
  if (reduced(N / G^2) != [N, G^2] || poldegree(N) != l, differs(["lowest terms", here]));
};

\\ Request E6: polrootsmod lists each root once.
counted(G, p, count) = if (#polrootsmod(G, p) != count, differs(["rational abscissas", here, count]));

\\ The domain (a, b), the codomain (at, bt), sigma, g, N and the count over p: codomain, numerators of both coordinates, kernel polynomial and its roots.
isogeny(p, a, b, at, bt, l, sigma, g, n, count) = {
  my(one = Mod(1, p), G = Polrev(g) * one, N = Polrev(n) * one, E = ellinit([a, b], p), R = ellisogeny(E, G), W);
  here = [p, a, b, l];
  map = R[2];
  W = deriv(N) * G - 2 * N * deriv(G);
  if (R[1] != [0, 0, 0, at, bt] * one, differs(["codomain", here]));
  if (poldegree(map[1]) != l || map[1] != N, differs(["N", here]));
  if (vecsum(terms(a, b, l, sigma, G)) != N, differs(["formula (13)", here]));
  if (map[3] != G, differs(["g", here]));
  if (map[2] != y * W, differs(["numerator of y", here]));
  if (-2 * polcoef(G, (l - 3) / 2) != sigma * one, differs(["sigma", here]));
  free((x^3 + a * x + b) * one, G, N, l);
  counted(G, p, count);
  isogenies++;
};

\\ A map that PARI composed has to be this one, numerators and g: the same coordinates, and the same kernel.
same(what, made, wanted, kernels) = {
  if (made[1] * wanted[3]^2 != wanted[1] * made[3]^2, differs([Str(what, " abscissa"), here, kernels]));
  if (made[2] * wanted[3]^3 != wanted[2] * made[3]^3, differs([Str(what, " ordinate"), here, kernels]));
  if (poldegree(made[1]) - 2 * poldegree(made[3]) != 1 || made[3] / pollead(made[3]) != wanted[3], differs([Str(what, " kernel"), here, kernels]));
};

\\ PARI's isogenies with these kernel polynomials from (a, b) on, each from where the one before it ends.
steps(p, a, b, kernels) = {
  my(E = [0, 0, 0, a, b], list = List(), R);
  for (i = 1, #kernels, R = ellisogeny(ellinit(E, p), Polrev(kernels[i]) * Mod(1, p)); listput(list, R); E = R[1]);
  Vec(list);
};

\\ Request E1: two such isogenies composed by PARI. The last isogeny has to be the same map with the same codomain. Points go through the composed one from
\\ now on.
composed(p, a, b, kernels, at, bt) = {
  my([first, second] = steps(p, a, b, kernels), last = map);
  map = ellisogenyapply(second[2], first[2]);
  if (second[1] != [0, 0, 0, at, bt] * Mod(1, p), differs(["composed codomain", here, kernels]));
  same("composed", map, last, kernels);
  compositions++;
};

\\ Request E7: three such isogenies, composed by PARI from the left and from the right. What the library wrote in each way, as codomain, g and N, has to be
\\ that map.
chained(p, a, b, kernels, left, right) = {
  my(one = Mod(1, p), [first, second, third] = steps(p, a, b, kernels), ways, at, bt, G, N);
  ways = [["left", ellisogenyapply(third[2], ellisogenyapply(second[2], first[2])), left],
    ["right", ellisogenyapply(ellisogenyapply(third[2], second[2]), first[2]), right]];
  for (i = 1, 2,
    [at, bt] = ways[i][3][1];
    [G, N] = apply(list -> Polrev(list) * one, ways[i][3][2..3]);
    if (third[1] != [0, 0, 0, at, bt] * one, differs(["codomain of a chain", ways[i][1], here, kernels]));
    same(ways[i][1], ways[i][2], [N, y * (deriv(N) * G - 2 * N * deriv(G)), G], kernels));
  chains++;
};

\\ The point P must go to Q through the last isogeny.
goes(P, Q) = {
  my(R = ellisogenyapply(map, P));
  if (Q == [0], infinities++);
  if (R != Q, differs(["point", here, P, Q, R]));
  points++;
};

\\ A certificate with l = p + 2: R1 to R3 hold, and g is a power of a factor x - r of f. The map is PARI's isogeny of degree 2 with the kernel polynomial
\\ x - r, and these are the greatest common divisors.
beyond(p, a, b, at, bt, l, sigma, g, n, count) = {
  my(one = Mod(1, p), G = Polrev(g) * one, N = Polrev(n) * one, F = (x^3 + a * x + b) * one, d = (l - 1) / 2, W, H, R);
  here = [p, a, b, l];
  W = deriv(N) * G - 2 * N * deriv(G);
  if (l != p + 2 || poldegree(G) != d || pollead(G) != 1 || -2 * polcoef(G, d - 1) != sigma * one, differs(["R1 beyond question 4", here]));
  if (vecsum(terms(a, b, l, sigma, G)) != N, differs(["R2 beyond question 4", here]));
  if (F * W^2 != N^3 + at * N * G^4 + bt * G^6, differs(["R3 beyond question 4", here]));
  H = gcd(G, F) / pollead(gcd(G, F));
  R = ellisogeny(ellinit([a, b], p), H);
  if (poldegree(H) != 1 || G != H^d || issquarefree(G), differs(["a power of x - r", here]));
  counted(G, p, count);
  if (gcd(G, deriv(G)) % H^(d - 1) != 0 || poldegree(gcd(G, deriv(G))) != d - 1 || N % G != 0, differs(["common factors", here]));
  if (coprime(G, deriv(G)) || coprime(G, F) || coprime(G, N), differs(["coprime beyond question 4", here]));
  if (R[1] != [0, 0, 0, at, bt] * one || R[2][1] / R[2][3]^2 != N / G^2, differs(["isogeny of degree 2", here]));
  if (apply(poldegree, reduced(N / G^2)) != [2, 1], differs(["lowest terms beyond question 4", here]));
  refused++;
};

\\ The parts of N and the count, for a g that may be anything.
parts(p, a, b, l, sigma, g, list, count) = {
  my(one = Mod(1, p), G = Polrev(g) * one);
  here = [p, a, b, l, g];
  if (terms(a, b, l, sigma, G) != apply(part -> Polrev(part) * one, list), differs(["parts", here]));
  counted(G, p, count);
  sums++;
};

name(p, a, b, j) = {
  if (lift(ellinit([a, b], p).j) != j, differs(["name", p, a, b, j]));
  names++;
};

\\ The primes from 11 to 2^28 - 1 among the numbers from m to n.
permitted(m, n, list) = {
  my(from = max(m, 11), to = min(n, 2^28 - 1));
  if (list != if (from <= to, primes([from, to]), []), differs(["primes", m, n]));
  numbers += n - m + 1;
};

finish(counts, n) = {
  if ([isogenies, points, infinities, compositions, chains, refused, sums, names] != counts || numbers != n, differs("the script was cut short"));
  print("PARI/GP ", strjoin(apply(n -> Str(n), version()[1..3]), "."), ": ", isogenies, " kernels, ", points, " points, ", infinities, " of them to infinity, ",
    compositions, " compositions, ", chains, " chains either way, ", refused, " certificates beyond question 4, ", sums, " times the parts of N, ", names, " names, ",
    numbers, " numbers prime or not: ", differences, " differences");
};
