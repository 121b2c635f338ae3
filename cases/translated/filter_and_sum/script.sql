SET SCALE 6 ROUNDING HALF_UP;
INPUT "sales" ("AREA" TEXT CODES ('N', 'S'), "AMOUNT" NUMBER) KEY ("AREA");
INPUT "returns" ("AREA" TEXT CODES ('N', 'S'), "AMOUNT" NUMBER) KEY ("AREA");
CREATE TABLE "net$1" AS
  SELECT "a"."AREA" AS "AREA", "a"."AMOUNT" AS "AMOUNT"
  FROM "sales" AS "a"
  WHERE "a"."AMOUNT" > 0;
CREATE TABLE "net" AS
  SELECT "a"."AREA" AS "AREA", "a"."AMOUNT" - "b"."AMOUNT" AS "AMOUNT"
  FROM "net$1" AS "a"
  INNER JOIN "returns" AS "b" ON "b"."AREA" = "a"."AREA";
CREATE TABLE "total" AS
  SELECT "a"."AREA" AS "AREA", "a"."AMOUNT" AS "AMOUNT", "a"."AMOUNT" / 1000 AS "part"
  FROM "net" AS "a";
EXPORT "total" ORDER BY "AREA";
