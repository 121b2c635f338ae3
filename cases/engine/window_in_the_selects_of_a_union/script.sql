SET SCALE 2 ROUNDING HALF_UP;
INPUT "T" ("id" INTEGER, "k" TEXT, "v" INTEGER) KEY ("id");
CREATE TABLE "U" AS
  SELECT "t"."id" AS "id", RANK() OVER (ORDER BY "t"."v") AS "w"
  FROM "T" AS "t"
  WHERE "t"."id" < 3
  UNION ALL
  SELECT "t"."id" AS "id", AVG("t"."v") OVER (ORDER BY "t"."id" ROWS BETWEEN UNBOUNDED PRECEDING AND CURRENT ROW) AS "w"
  FROM "T" AS "t"
  WHERE "t"."id" > 3;
EXPORT "U" ORDER BY "id";
