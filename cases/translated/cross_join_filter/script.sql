SET SCALE 6 ROUNDING HALF_UP;
INPUT "people" ("person" TEXT, "age" INTEGER) KEY ("person");
INPUT "classes" ("class" TEXT, "low" INTEGER, "high" INTEGER) KEY ("class");
CREATE TABLE "R" AS
  SELECT "a$0"."person" AS "person", "a$1"."class" AS "class", "a$0"."age" AS "age",
    "a$1"."low" AS "low", "a$1"."high" AS "high"
  FROM "people" AS "a$0"
  CROSS JOIN "classes" AS "a$1"
  WHERE "a$1"."low" <= "a$0"."age" AND "a$0"."age" <= "a$1"."high";
EXPORT "R" ORDER BY "person", "class";
