SET SCALE 6 ROUNDING HALF_UP;
INPUT "x" ("k" TEXT, "u" INTEGER) KEY ("k");
INPUT "y" ("k" TEXT, "v" INTEGER) KEY ("k");
CREATE TABLE "R$1" AS
  SELECT "a"."k" AS "k"
  FROM "x" AS "a"
  UNION ALL
  SELECT "a"."k" AS "k"
  FROM "y" AS "a";
CREATE TABLE "R$2" AS
  SELECT "a"."k" AS "k"
  FROM "R$1" AS "a"
  GROUP BY "a"."k";
CREATE TABLE "R" AS
  SELECT "a$0"."k" AS "k", "a$1"."u" AS "u", "a$2"."v" AS "v"
  FROM "R$2" AS "a$0"
  LEFT JOIN "x" AS "a$1" ON "a$1"."k" = "a$0"."k"
  LEFT JOIN "y" AS "a$2" ON "a$2"."k" = "a$0"."k"
  WHERE "a$1"."u" > "a$2"."v" OR "a$1"."u" IS NULL;
EXPORT "R" ORDER BY "k";
