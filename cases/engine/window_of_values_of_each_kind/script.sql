SET SCALE 2 ROUNDING HALF_UP;
INPUT "T" ("id" INTEGER, "b" BOOLEAN, "d" DATE, "n" NUMBER, "p" PERIOD) KEY ("id");
CREATE TABLE "U" AS
  SELECT "t"."id" AS "id",
    MIN("t"."b") OVER (ROWS BETWEEN UNBOUNDED PRECEDING AND UNBOUNDED FOLLOWING) AS "w1",
    MAX("t"."d") OVER (ORDER BY "t"."id" ROWS BETWEEN UNBOUNDED PRECEDING AND CURRENT ROW) AS "w2",
    LAG("t"."p", 1, PERIOD '2024-Q1') OVER (ORDER BY "t"."d") AS "w3",
    LEAD("t"."b", 1, TRUE) OVER (ORDER BY "t"."p") AS "w4",
    LAG("t"."d", 1, DATE '2024-02-29') OVER (ORDER BY "t"."b", "t"."id") AS "w5",
    LAG("t"."n", 1, -1) OVER (ORDER BY "t"."n") AS "w6", RANK() OVER (ORDER BY "t"."p") AS "w7"
  FROM "T" AS "t";
EXPORT "U" ORDER BY "id";
