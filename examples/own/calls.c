same(max(1, 2), f(x));
same(0, g(h(y), 3));
