SET SCALE 6 ROUNDING HALF_UP;
INPUT "x" ("area" TEXT, "moment" PERIOD, "amount" INTEGER) KEY ("area", "moment");
CREATE TABLE "R$1" AS
  SELECT "a"."area" AS "area", "a"."moment" AS "moment",
    LAG("a"."amount", 1, 0) OVER (PARTITION BY "a"."area" ORDER BY "a"."moment") AS "amount"
  FROM "x" AS "a"
  WHERE PERIOD_FREQ("a"."moment") = 'A'
  UNION ALL
  SELECT "a"."area" AS "area", "a"."moment" AS "moment",
    LAG("a"."amount", 1, 0) OVER (PARTITION BY "a"."area" ORDER BY "a"."moment") AS "amount"
  FROM "x" AS "a"
  WHERE PERIOD_FREQ("a"."moment") = 'S'
  UNION ALL
  SELECT "a"."area" AS "area", "a"."moment" AS "moment",
    LAG("a"."amount", 1, 0) OVER (PARTITION BY "a"."area" ORDER BY "a"."moment") AS "amount"
  FROM "x" AS "a"
  WHERE PERIOD_FREQ("a"."moment") = 'Q'
  UNION ALL
  SELECT "a"."area" AS "area", "a"."moment" AS "moment",
    LAG("a"."amount", 1, 0) OVER (PARTITION BY "a"."area" ORDER BY "a"."moment") AS "amount"
  FROM "x" AS "a"
  WHERE PERIOD_FREQ("a"."moment") = 'M';
CREATE TABLE "R" AS
  SELECT "a"."area" AS "area", "a"."moment" AS "moment", "a"."amount" - "b"."amount" AS "amount"
  FROM "x" AS "a"
  INNER JOIN "R$1" AS "b" ON "b"."area" = "a"."area" AND "b"."moment" = "a"."moment";
EXPORT "R" ORDER BY "area", "moment";
