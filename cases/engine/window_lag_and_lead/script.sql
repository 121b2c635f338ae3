SET SCALE 2 ROUNDING HALF_UP;
INPUT "T" ("id" INTEGER, "k" TEXT, "v" INTEGER) KEY ("id");
CREATE TABLE "U" AS
  SELECT "t"."id" AS "id", LAG("t"."v", 1, NULL) OVER (ORDER BY "t"."id") AS "w1",
    LEAD("t"."v", 2, -1) OVER (PARTITION BY "t"."k" ORDER BY "t"."id") AS "w2",
    LAG("t"."k", 1, 'none') OVER (ORDER BY "t"."v" DESC) AS "w3",
    LAG("t"."v", 0, 3) OVER (ORDER BY "t"."id") AS "w4",
    LEAD("t"."v", 1000000, 3) OVER (ORDER BY "t"."id") AS "w5"
  FROM "T" AS "t";
EXPORT "U" ORDER BY "id";
