\set ON_ERROR_STOP 1
\t on
\i hashers.sql
SELECT hashers_fnv1a64('a')::numeric = 12638187200555641996 - 18446744073709551616, hashers_djb2('ab') = 5860902,
       hashers_oaat('abcdefg') = 3103867595652801641, hashers_spooky_v1('abcd') = 4142038200967391753,
       hashers_crc32('123456789') = 3421780262,
       hashers_xxh3('abc') = 8696274497037089104, hashers_xxh64('abc') = 4952883123889572249, hashers_xxh32('abc') = 852579327,
       hashers_murmur3('hello')::numeric = 14688674573012802306 - 18446744073709551616, hashers_murmur3_32('hello') = 613153351,
       hashers_siphash13('hello')::numeric = 16350172494705860510 - 18446744073709551616, hashers_siphash24('') = 2202906307356721367,
       (SELECT hashers_fnv1a64_all(x ORDER BY i) FROM (VALUES (1, 'ab'::bytea), (2, ''), (3, 'cd'), (4, 'efg')) AS t (i, x))
           = hashers_fnv1a64('abcdefg'),
       (SELECT hashers_oaat_all(x ORDER BY i) FROM (VALUES (1, 'ab'::bytea), (2, ''), (3, 'cd'), (4, 'efg')) AS t (i, x))
           = hashers_oaat('abcdefg'),
       (SELECT count(DISTINCT hashers_fnv1a64(decode(lpad(to_hex(i), 32, '0'), 'hex'))) FROM generate_series(1, 100000) AS i) = 100000;
