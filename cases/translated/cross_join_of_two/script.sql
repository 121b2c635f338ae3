SET SCALE 6 ROUNDING HALF_UP;
INPUT "x" ("k" TEXT, "u" INTEGER) KEY ("k");
INPUT "y" ("n" INTEGER, "v" INTEGER) KEY ("n");
CREATE TABLE "R" AS
  SELECT "a$0"."k" AS "k", "a$1"."n" AS "n", "a$0"."u" AS "u", "a$1"."v" AS "v"
  FROM "x" AS "a$0"
  CROSS JOIN "y" AS "a$1";
EXPORT "R" ORDER BY "k", "n";
