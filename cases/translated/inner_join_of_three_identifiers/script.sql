SET SCALE 6 ROUNDING HALF_UP;
INPUT "x" ("k" TEXT, "n" INTEGER, "d" DATE, "u" INTEGER) KEY ("k", "n", "d");
INPUT "y" ("k" TEXT, "n" INTEGER, "d" DATE, "v" INTEGER) KEY ("k", "n", "d");
CREATE TABLE "R" AS
  SELECT "a$0"."k" AS "k", "a$0"."n" AS "n", "a$0"."d" AS "d", "a$0"."u" AS "u", "a$1"."v" AS "v"
  FROM "x" AS "a$0"
  INNER JOIN "y" AS "a$1" ON "a$1"."k" = "a$0"."k" AND "a$1"."n" = "a$0"."n" AND "a$1"."d" = "a$0"."d";
EXPORT "R" ORDER BY "k", "n", "d";
