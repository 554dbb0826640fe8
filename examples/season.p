% A season of playbills: 60 days, three houses, some 330 clauses. What was given at the opera on the last day? The bill leaves the time open.
cnf(c0,axiom,( performed(D,H,P) | ~ bill(D,H,S,P) | ~ on(D,H,S) )).
cnf(c1,axiom,( plays(A,R,D,H) | ~ cast(A,R,P) | ~ performed(D,H,P) | absent(A,D) )).
cnf(c2,axiom,( plays(B,R,D,H) | ~ cast(A,R,P) | ~ performed(D,H,P) | ~ absent(A,D) | ~ understudy(B,A,R) )).
cnf(c3,axiom,( seen(A,D) | ~ plays(A,R,D,H) )).
cnf(c4,axiom,( met(A,B,D) | ~ plays(A,R,D,H) | ~ plays(B,Q,D,H) )).
cnf(c5,axiom,( cast(vestris,prince,hamlet) )).
cnf(c6,axiom,( understudy(kean,vestris,prince) )).
cnf(c7,axiom,( cast(faucit,ghost,hamlet) )).
cnf(c8,axiom,( understudy(vestris,faucit,ghost) )).
cnf(c9,axiom,( cast(siddons,ophelia,hamlet) )).
cnf(c10,axiom,( understudy(phelps,siddons,ophelia) )).
cnf(c11,axiom,( cast(kean,malaprop,rivals) )).
cnf(c12,axiom,( understudy(kemble,kean,malaprop) )).
cnf(c13,axiom,( cast(siddons,absolute,rivals) )).
cnf(c14,axiom,( understudy(macready,siddons,absolute) )).
cnf(c15,axiom,( cast(jordan,leonore,fidelio) )).
cnf(c16,axiom,( understudy(siddons,jordan,leonore) )).
cnf(c17,axiom,( cast(kean,rocco,fidelio) )).
cnf(c18,axiom,( understudy(jordan,kean,rocco) )).
cnf(c19,axiom,( cast(faucit,moor,othello) )).
cnf(c20,axiom,( understudy(siddons,faucit,moor) )).
cnf(c21,axiom,( cast(jordan,iago,othello) )).
cnf(c22,axiom,( understudy(siddons,jordan,iago) )).
cnf(c23,axiom,( on(d0,royal,eve) )).
cnf(c24,axiom,( bill(d0,royal,mat,rivals) )).
cnf(c25,axiom,( bill(d0,royal,eve,rivals) )).
cnf(c26,axiom,( on(d0,opera,eve) )).
cnf(c27,axiom,( bill(d0,opera,mat,hamlet) )).
cnf(c28,axiom,( bill(d0,opera,eve,hamlet) )).
cnf(c29,axiom,( on(d1,opera,mat) )).
cnf(c30,axiom,( bill(d1,opera,mat,rivals) )).
cnf(c31,axiom,( bill(d1,opera,eve,rivals) )).
cnf(c32,axiom,( absent(kean,d1) )).
cnf(c33,axiom,( on(d2,royal,eve) )).
cnf(c34,axiom,( bill(d2,royal,mat,rivals) )).
cnf(c35,axiom,( bill(d2,royal,eve,rivals) )).
cnf(c36,axiom,( absent(siddons,d2) | absent(macready,d2) )).
cnf(c37,axiom,( on(d3,lyceum,mat) | on(d3,lyceum,eve) )).
cnf(c38,axiom,( bill(d3,lyceum,mat,othello) )).
cnf(c39,axiom,( bill(d3,lyceum,eve,othello) )).
cnf(c40,axiom,( on(d4,lyceum,eve) )).
cnf(c41,axiom,( bill(d4,lyceum,mat,rivals) )).
cnf(c42,axiom,( bill(d4,lyceum,eve,rivals) )).
cnf(c43,axiom,( on(d4,royal,mat) )).
cnf(c44,axiom,( bill(d4,royal,mat,rivals) )).
cnf(c45,axiom,( bill(d4,royal,eve,rivals) )).
cnf(c46,axiom,( on(d5,opera,eve) )).
cnf(c47,axiom,( bill(d5,opera,mat,fidelio) )).
cnf(c48,axiom,( bill(d5,opera,eve,fidelio) )).
cnf(c49,axiom,( on(d5,lyceum,mat) )).
cnf(c50,axiom,( bill(d5,lyceum,mat,hamlet) )).
cnf(c51,axiom,( bill(d5,lyceum,eve,hamlet) )).
cnf(c52,axiom,( on(d6,lyceum,mat) )).
cnf(c53,axiom,( bill(d6,lyceum,mat,othello) )).
cnf(c54,axiom,( bill(d6,lyceum,eve,othello) )).
cnf(c55,axiom,( on(d7,lyceum,eve) )).
cnf(c56,axiom,( bill(d7,lyceum,mat,othello) )).
cnf(c57,axiom,( bill(d7,lyceum,eve,othello) )).
cnf(c58,axiom,( on(d7,opera,mat) )).
cnf(c59,axiom,( bill(d7,opera,mat,othello) )).
cnf(c60,axiom,( bill(d7,opera,eve,othello) )).
cnf(c61,axiom,( absent(macready,d7) )).
cnf(c62,axiom,( on(d8,royal,eve) )).
cnf(c63,axiom,( bill(d8,royal,mat,fidelio) )).
cnf(c64,axiom,( bill(d8,royal,eve,fidelio) )).
cnf(c65,axiom,( on(d9,opera,mat) )).
cnf(c66,axiom,( bill(d9,opera,mat,fidelio) )).
cnf(c67,axiom,( bill(d9,opera,eve,fidelio) )).
cnf(c68,axiom,( on(d9,lyceum,eve) )).
cnf(c69,axiom,( bill(d9,lyceum,mat,othello) )).
cnf(c70,axiom,( bill(d9,lyceum,eve,othello) )).
cnf(c71,axiom,( on(d10,lyceum,mat) | on(d10,lyceum,eve) )).
cnf(c72,axiom,( bill(d10,lyceum,mat,rivals) )).
cnf(c73,axiom,( bill(d10,lyceum,eve,rivals) )).
cnf(c74,axiom,( on(d11,royal,eve) )).
cnf(c75,axiom,( bill(d11,royal,mat,othello) )).
cnf(c76,axiom,( bill(d11,royal,eve,othello) )).
cnf(c77,axiom,( on(d11,opera,mat) | on(d11,opera,eve) )).
cnf(c78,axiom,( bill(d11,opera,mat,fidelio) )).
cnf(c79,axiom,( bill(d11,opera,eve,fidelio) )).
cnf(c80,axiom,( on(d12,opera,eve) )).
cnf(c81,axiom,( bill(d12,opera,mat,fidelio) )).
cnf(c82,axiom,( bill(d12,opera,eve,fidelio) )).
cnf(c83,axiom,( on(d12,lyceum,mat) | on(d12,lyceum,eve) )).
cnf(c84,axiom,( bill(d12,lyceum,mat,othello) )).
cnf(c85,axiom,( bill(d12,lyceum,eve,othello) )).
cnf(c86,axiom,( absent(kemble,d12) )).
cnf(c87,axiom,( absent(jordan,d12) | absent(siddons,d12) )).
cnf(c88,axiom,( on(d13,opera,mat) )).
cnf(c89,axiom,( bill(d13,opera,mat,fidelio) )).
cnf(c90,axiom,( bill(d13,opera,eve,fidelio) )).
cnf(c91,axiom,( on(d13,royal,eve) )).
cnf(c92,axiom,( bill(d13,royal,mat,rivals) )).
cnf(c93,axiom,( bill(d13,royal,eve,rivals) )).
cnf(c94,axiom,( on(d14,opera,eve) )).
cnf(c95,axiom,( bill(d14,opera,mat,hamlet) )).
cnf(c96,axiom,( bill(d14,opera,eve,hamlet) )).
cnf(c97,axiom,( on(d15,lyceum,mat) )).
cnf(c98,axiom,( bill(d15,lyceum,mat,othello) )).
cnf(c99,axiom,( bill(d15,lyceum,eve,othello) )).
cnf(c100,axiom,( on(d15,opera,mat) )).
cnf(c101,axiom,( bill(d15,opera,mat,othello) )).
cnf(c102,axiom,( bill(d15,opera,eve,othello) )).
cnf(c103,axiom,( absent(jordan,d15) )).
cnf(c104,axiom,( on(d16,lyceum,mat) )).
cnf(c105,axiom,( bill(d16,lyceum,mat,hamlet) )).
cnf(c106,axiom,( bill(d16,lyceum,eve,hamlet) )).
cnf(c107,axiom,( on(d17,opera,mat) | on(d17,opera,eve) )).
cnf(c108,axiom,( bill(d17,opera,mat,hamlet) )).
cnf(c109,axiom,( bill(d17,opera,eve,hamlet) )).
cnf(c110,axiom,( on(d17,royal,mat) )).
cnf(c111,axiom,( bill(d17,royal,mat,othello) )).
cnf(c112,axiom,( bill(d17,royal,eve,othello) )).
cnf(c113,axiom,( absent(vestris,d17) )).
cnf(c114,axiom,( on(d18,royal,mat) | on(d18,royal,eve) )).
cnf(c115,axiom,( bill(d18,royal,mat,othello) )).
cnf(c116,axiom,( bill(d18,royal,eve,othello) )).
cnf(c117,axiom,( on(d18,opera,eve) )).
cnf(c118,axiom,( bill(d18,opera,mat,othello) )).
cnf(c119,axiom,( bill(d18,opera,eve,othello) )).
cnf(c120,axiom,( absent(vestris,d18) | absent(phelps,d18) )).
cnf(c121,axiom,( on(d19,lyceum,mat) )).
cnf(c122,axiom,( bill(d19,lyceum,mat,hamlet) )).
cnf(c123,axiom,( bill(d19,lyceum,eve,hamlet) )).
cnf(c124,axiom,( on(d19,royal,mat) )).
cnf(c125,axiom,( bill(d19,royal,mat,fidelio) )).
cnf(c126,axiom,( bill(d19,royal,eve,fidelio) )).
cnf(c127,axiom,( absent(macready,d19) | absent(vestris,d19) )).
cnf(c128,axiom,( on(d20,opera,eve) )).
cnf(c129,axiom,( bill(d20,opera,mat,fidelio) )).
cnf(c130,axiom,( bill(d20,opera,eve,fidelio) )).
cnf(c131,axiom,( on(d21,opera,eve) )).
cnf(c132,axiom,( bill(d21,opera,mat,fidelio) )).
cnf(c133,axiom,( bill(d21,opera,eve,fidelio) )).
cnf(c134,axiom,( on(d22,royal,mat) | on(d22,royal,eve) )).
cnf(c135,axiom,( bill(d22,royal,mat,othello) )).
cnf(c136,axiom,( bill(d22,royal,eve,othello) )).
cnf(c137,axiom,( absent(phelps,d22) )).
cnf(c138,axiom,( on(d23,royal,eve) )).
cnf(c139,axiom,( bill(d23,royal,mat,fidelio) )).
cnf(c140,axiom,( bill(d23,royal,eve,fidelio) )).
cnf(c141,axiom,( absent(vestris,d23) )).
cnf(c142,axiom,( on(d24,lyceum,mat) )).
cnf(c143,axiom,( bill(d24,lyceum,mat,rivals) )).
cnf(c144,axiom,( bill(d24,lyceum,eve,rivals) )).
cnf(c145,axiom,( on(d24,royal,mat) )).
cnf(c146,axiom,( bill(d24,royal,mat,othello) )).
cnf(c147,axiom,( bill(d24,royal,eve,othello) )).
cnf(c148,axiom,( absent(siddons,d24) )).
cnf(c149,axiom,( on(d25,opera,mat) | on(d25,opera,eve) )).
cnf(c150,axiom,( bill(d25,opera,mat,hamlet) )).
cnf(c151,axiom,( bill(d25,opera,eve,hamlet) )).
cnf(c152,axiom,( on(d25,royal,eve) )).
cnf(c153,axiom,( bill(d25,royal,mat,rivals) )).
cnf(c154,axiom,( bill(d25,royal,eve,rivals) )).
cnf(c155,axiom,( absent(vestris,d25) )).
cnf(c156,axiom,( absent(faucit,d25) | absent(jordan,d25) )).
cnf(c157,axiom,( on(d26,opera,mat) )).
cnf(c158,axiom,( bill(d26,opera,mat,rivals) )).
cnf(c159,axiom,( bill(d26,opera,eve,rivals) )).
cnf(c160,axiom,( on(d26,royal,mat) )).
cnf(c161,axiom,( bill(d26,royal,mat,rivals) )).
cnf(c162,axiom,( bill(d26,royal,eve,rivals) )).
cnf(c163,axiom,( on(d27,opera,eve) )).
cnf(c164,axiom,( bill(d27,opera,mat,othello) )).
cnf(c165,axiom,( bill(d27,opera,eve,othello) )).
cnf(c166,axiom,( on(d28,royal,mat) | on(d28,royal,eve) )).
cnf(c167,axiom,( bill(d28,royal,mat,hamlet) )).
cnf(c168,axiom,( bill(d28,royal,eve,hamlet) )).
cnf(c169,axiom,( absent(kemble,d28) | absent(jordan,d28) )).
cnf(c170,axiom,( on(d29,royal,mat) )).
cnf(c171,axiom,( bill(d29,royal,mat,hamlet) )).
cnf(c172,axiom,( bill(d29,royal,eve,hamlet) )).
cnf(c173,axiom,( absent(jordan,d29) )).
cnf(c174,axiom,( on(d30,lyceum,mat) )).
cnf(c175,axiom,( bill(d30,lyceum,mat,rivals) )).
cnf(c176,axiom,( bill(d30,lyceum,eve,rivals) )).
cnf(c177,axiom,( on(d30,opera,mat) | on(d30,opera,eve) )).
cnf(c178,axiom,( bill(d30,opera,mat,fidelio) )).
cnf(c179,axiom,( bill(d30,opera,eve,fidelio) )).
cnf(c180,axiom,( on(d31,opera,eve) )).
cnf(c181,axiom,( bill(d31,opera,mat,rivals) )).
cnf(c182,axiom,( bill(d31,opera,eve,rivals) )).
cnf(c183,axiom,( on(d31,royal,mat) | on(d31,royal,eve) )).
cnf(c184,axiom,( bill(d31,royal,mat,hamlet) )).
cnf(c185,axiom,( bill(d31,royal,eve,hamlet) )).
cnf(c186,axiom,( on(d32,royal,eve) )).
cnf(c187,axiom,( bill(d32,royal,mat,rivals) )).
cnf(c188,axiom,( bill(d32,royal,eve,rivals) )).
cnf(c189,axiom,( on(d33,opera,mat) | on(d33,opera,eve) )).
cnf(c190,axiom,( bill(d33,opera,mat,hamlet) )).
cnf(c191,axiom,( bill(d33,opera,eve,hamlet) )).
cnf(c192,axiom,( on(d33,lyceum,mat) )).
cnf(c193,axiom,( bill(d33,lyceum,mat,hamlet) )).
cnf(c194,axiom,( bill(d33,lyceum,eve,hamlet) )).
cnf(c195,axiom,( absent(kean,d33) )).
cnf(c196,axiom,( on(d34,royal,mat) )).
cnf(c197,axiom,( bill(d34,royal,mat,othello) )).
cnf(c198,axiom,( bill(d34,royal,eve,othello) )).
cnf(c199,axiom,( on(d35,opera,eve) )).
cnf(c200,axiom,( bill(d35,opera,mat,fidelio) )).
cnf(c201,axiom,( bill(d35,opera,eve,fidelio) )).
cnf(c202,axiom,( on(d36,opera,mat) | on(d36,opera,eve) )).
cnf(c203,axiom,( bill(d36,opera,mat,fidelio) )).
cnf(c204,axiom,( bill(d36,opera,eve,fidelio) )).
cnf(c205,axiom,( on(d37,royal,eve) )).
cnf(c206,axiom,( bill(d37,royal,mat,hamlet) )).
cnf(c207,axiom,( bill(d37,royal,eve,hamlet) )).
cnf(c208,axiom,( on(d37,lyceum,mat) )).
cnf(c209,axiom,( bill(d37,lyceum,mat,fidelio) )).
cnf(c210,axiom,( bill(d37,lyceum,eve,fidelio) )).
cnf(c211,axiom,( absent(kean,d37) )).
cnf(c212,axiom,( on(d38,royal,mat) )).
cnf(c213,axiom,( bill(d38,royal,mat,fidelio) )).
cnf(c214,axiom,( bill(d38,royal,eve,fidelio) )).
cnf(c215,axiom,( on(d38,opera,mat) | on(d38,opera,eve) )).
cnf(c216,axiom,( bill(d38,opera,mat,rivals) )).
cnf(c217,axiom,( bill(d38,opera,eve,rivals) )).
cnf(c218,axiom,( absent(kean,d38) )).
cnf(c219,axiom,( on(d39,royal,mat) | on(d39,royal,eve) )).
cnf(c220,axiom,( bill(d39,royal,mat,rivals) )).
cnf(c221,axiom,( bill(d39,royal,eve,rivals) )).
cnf(c222,axiom,( on(d39,opera,mat) )).
cnf(c223,axiom,( bill(d39,opera,mat,othello) )).
cnf(c224,axiom,( bill(d39,opera,eve,othello) )).
cnf(c225,axiom,( absent(vestris,d39) )).
cnf(c226,axiom,( absent(vestris,d39) | absent(siddons,d39) )).
cnf(c227,axiom,( on(d40,opera,mat) | on(d40,opera,eve) )).
cnf(c228,axiom,( bill(d40,opera,mat,othello) )).
cnf(c229,axiom,( bill(d40,opera,eve,othello) )).
cnf(c230,axiom,( on(d40,lyceum,mat) )).
cnf(c231,axiom,( bill(d40,lyceum,mat,othello) )).
cnf(c232,axiom,( bill(d40,lyceum,eve,othello) )).
cnf(c233,axiom,( on(d41,royal,mat) | on(d41,royal,eve) )).
cnf(c234,axiom,( bill(d41,royal,mat,rivals) )).
cnf(c235,axiom,( bill(d41,royal,eve,rivals) )).
cnf(c236,axiom,( absent(macready,d41) )).
cnf(c237,axiom,( on(d42,lyceum,mat) | on(d42,lyceum,eve) )).
cnf(c238,axiom,( bill(d42,lyceum,mat,rivals) )).
cnf(c239,axiom,( bill(d42,lyceum,eve,rivals) )).
cnf(c240,axiom,( on(d43,lyceum,mat) | on(d43,lyceum,eve) )).
cnf(c241,axiom,( bill(d43,lyceum,mat,othello) )).
cnf(c242,axiom,( bill(d43,lyceum,eve,othello) )).
cnf(c243,axiom,( on(d43,royal,mat) )).
cnf(c244,axiom,( bill(d43,royal,mat,hamlet) )).
cnf(c245,axiom,( bill(d43,royal,eve,hamlet) )).
cnf(c246,axiom,( absent(kean,d43) | absent(kemble,d43) )).
cnf(c247,axiom,( on(d44,opera,mat) | on(d44,opera,eve) )).
cnf(c248,axiom,( bill(d44,opera,mat,hamlet) )).
cnf(c249,axiom,( bill(d44,opera,eve,hamlet) )).
cnf(c250,axiom,( absent(jordan,d44) )).
cnf(c251,axiom,( absent(kean,d44) | absent(jordan,d44) )).
cnf(c252,axiom,( on(d45,lyceum,mat) | on(d45,lyceum,eve) )).
cnf(c253,axiom,( bill(d45,lyceum,mat,othello) )).
cnf(c254,axiom,( bill(d45,lyceum,eve,othello) )).
cnf(c255,axiom,( absent(kemble,d45) )).
cnf(c256,axiom,( absent(jordan,d45) | absent(siddons,d45) )).
cnf(c257,axiom,( on(d46,lyceum,mat) )).
cnf(c258,axiom,( bill(d46,lyceum,mat,hamlet) )).
cnf(c259,axiom,( bill(d46,lyceum,eve,hamlet) )).
cnf(c260,axiom,( on(d47,lyceum,eve) )).
cnf(c261,axiom,( bill(d47,lyceum,mat,othello) )).
cnf(c262,axiom,( bill(d47,lyceum,eve,othello) )).
cnf(c263,axiom,( absent(vestris,d47) )).
cnf(c264,axiom,( on(d48,royal,mat) | on(d48,royal,eve) )).
cnf(c265,axiom,( bill(d48,royal,mat,hamlet) )).
cnf(c266,axiom,( bill(d48,royal,eve,hamlet) )).
cnf(c267,axiom,( on(d48,opera,eve) )).
cnf(c268,axiom,( bill(d48,opera,mat,rivals) )).
cnf(c269,axiom,( bill(d48,opera,eve,rivals) )).
cnf(c270,axiom,( absent(phelps,d48) )).
cnf(c271,axiom,( absent(faucit,d48) | absent(vestris,d48) )).
cnf(c272,axiom,( on(d49,opera,eve) )).
cnf(c273,axiom,( bill(d49,opera,mat,fidelio) )).
cnf(c274,axiom,( bill(d49,opera,eve,fidelio) )).
cnf(c275,axiom,( on(d49,lyceum,mat) )).
cnf(c276,axiom,( bill(d49,lyceum,mat,rivals) )).
cnf(c277,axiom,( bill(d49,lyceum,eve,rivals) )).
cnf(c278,axiom,( on(d50,lyceum,mat) | on(d50,lyceum,eve) )).
cnf(c279,axiom,( bill(d50,lyceum,mat,fidelio) )).
cnf(c280,axiom,( bill(d50,lyceum,eve,fidelio) )).
cnf(c281,axiom,( absent(macready,d50) | absent(jordan,d50) )).
cnf(c282,axiom,( on(d51,royal,eve) )).
cnf(c283,axiom,( bill(d51,royal,mat,hamlet) )).
cnf(c284,axiom,( bill(d51,royal,eve,hamlet) )).
cnf(c285,axiom,( on(d52,opera,mat) )).
cnf(c286,axiom,( bill(d52,opera,mat,fidelio) )).
cnf(c287,axiom,( bill(d52,opera,eve,fidelio) )).
cnf(c288,axiom,( on(d52,royal,mat) )).
cnf(c289,axiom,( bill(d52,royal,mat,rivals) )).
cnf(c290,axiom,( bill(d52,royal,eve,rivals) )).
cnf(c291,axiom,( on(d53,opera,mat) )).
cnf(c292,axiom,( bill(d53,opera,mat,rivals) )).
cnf(c293,axiom,( bill(d53,opera,eve,rivals) )).
cnf(c294,axiom,( on(d53,lyceum,mat) )).
cnf(c295,axiom,( bill(d53,lyceum,mat,fidelio) )).
cnf(c296,axiom,( bill(d53,lyceum,eve,fidelio) )).
cnf(c297,axiom,( absent(vestris,d53) )).
cnf(c298,axiom,( on(d54,lyceum,eve) )).
cnf(c299,axiom,( bill(d54,lyceum,mat,rivals) )).
cnf(c300,axiom,( bill(d54,lyceum,eve,rivals) )).
cnf(c301,axiom,( on(d54,royal,mat) )).
cnf(c302,axiom,( bill(d54,royal,mat,hamlet) )).
cnf(c303,axiom,( bill(d54,royal,eve,hamlet) )).
cnf(c304,axiom,( absent(siddons,d54) | absent(jordan,d54) )).
cnf(c305,axiom,( on(d55,lyceum,eve) )).
cnf(c306,axiom,( bill(d55,lyceum,mat,fidelio) )).
cnf(c307,axiom,( bill(d55,lyceum,eve,fidelio) )).
cnf(c308,axiom,( absent(kemble,d55) )).
cnf(c309,axiom,( on(d56,lyceum,mat) )).
cnf(c310,axiom,( bill(d56,lyceum,mat,rivals) )).
cnf(c311,axiom,( bill(d56,lyceum,eve,rivals) )).
cnf(c312,axiom,( on(d56,opera,mat) )).
cnf(c313,axiom,( bill(d56,opera,mat,rivals) )).
cnf(c314,axiom,( bill(d56,opera,eve,rivals) )).
cnf(c315,axiom,( on(d57,opera,mat) | on(d57,opera,eve) )).
cnf(c316,axiom,( bill(d57,opera,mat,hamlet) )).
cnf(c317,axiom,( bill(d57,opera,eve,hamlet) )).
cnf(c318,axiom,( on(d57,royal,mat) )).
cnf(c319,axiom,( bill(d57,royal,mat,rivals) )).
cnf(c320,axiom,( bill(d57,royal,eve,rivals) )).
cnf(c321,axiom,( absent(vestris,d57) )).
cnf(c322,axiom,( on(d58,lyceum,eve) )).
cnf(c323,axiom,( bill(d58,lyceum,mat,hamlet) )).
cnf(c324,axiom,( bill(d58,lyceum,eve,hamlet) )).
cnf(c325,axiom,( on(d58,royal,eve) )).
cnf(c326,axiom,( bill(d58,royal,mat,rivals) )).
cnf(c327,axiom,( bill(d58,royal,eve,rivals) )).
cnf(c328,axiom,( absent(kean,d58) )).
cnf(c329,axiom,( on(d59,opera,mat) | on(d59,opera,eve) )).
cnf(c330,axiom,( bill(d59,opera,mat,hamlet) )).
cnf(c331,axiom,( bill(d59,opera,eve,hamlet) )).
cnf(c332,negated_conjecture,( ~ performed(d59,opera,P) )).
