SET SCALE 2 ROUNDING HALF_UP;
INPUT "T" ("id" INTEGER, "k" TEXT, "v" INTEGER) KEY ("id");
CREATE TABLE "U" AS
  SELECT "t"."id" AS "id",
    SUM("t"."v") OVER (ORDER BY "t"."id" ROWS BETWEEN UNBOUNDED PRECEDING AND CURRENT ROW) AS "s",
    RANK() OVER (ORDER BY "t"."v") AS "r", LAG("t"."v", 1, 0) OVER (ORDER BY "t"."id") AS "l"
  FROM "T" AS "t"
  WHERE "t"."v" > 1;
EXPORT "U" ORDER BY "id";
