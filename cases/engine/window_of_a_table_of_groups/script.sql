SET SCALE 2 ROUNDING HALF_UP;
INPUT "T" ("id" INTEGER, "k" TEXT, "v" INTEGER) KEY ("id");
CREATE TABLE "G" AS
  SELECT "t"."k" AS "k", SUM("t"."v") AS "s"
  FROM "T" AS "t"
  GROUP BY "t"."k";
CREATE TABLE "U" AS
  SELECT "g"."k" AS "k", RANK() OVER (ORDER BY "g"."s" DESC) AS "r", RATIO_TO_REPORT("g"."s") OVER () AS "q",
    SUM("g"."s") OVER (ORDER BY "g"."k" ROWS BETWEEN UNBOUNDED PRECEDING AND CURRENT ROW) AS "t"
  FROM "G" AS "g";
EXPORT "U" ORDER BY "k";
