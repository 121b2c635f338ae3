SET SCALE 6 ROUNDING HALF_UP;
INPUT "x" ("k" TEXT, "u" INTEGER) KEY ("k");
INPUT "y" ("k" TEXT, "v" INTEGER) KEY ("k");
CREATE TABLE "R$1" AS
  SELECT "a$0"."k" AS "k", "a$0"."u" AS "u", "a$1"."v" AS "v"
  FROM "x" AS "a$0"
  INNER JOIN "y" AS "a$1" ON "a$1"."k" = "a$0"."k";
CREATE TABLE "R" AS
  SELECT "a"."k" AS "k", "a"."u" AS "u", "a"."v" AS "v"
  FROM "R$1" AS "a"
  WHERE "a"."u" > "a"."v";
EXPORT "R" ORDER BY "k";
