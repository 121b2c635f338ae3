SET SCALE 6 ROUNDING HALF_UP;
INPUT "x" ("k" TEXT, "n" INTEGER, "u" INTEGER, "s" TEXT) KEY ("k", "n");
INPUT "y" ("n" INTEGER, "k" TEXT, "v" NUMBER) KEY ("n", "k");
INPUT "z" ("k" TEXT, "n" INTEGER, "w" BOOLEAN) KEY ("k", "n");
CREATE TABLE "R$1" AS
  SELECT "a"."k" AS "k", "a"."n" AS "n"
  FROM "x" AS "a"
  UNION ALL
  SELECT "a"."k" AS "k", "a"."n" AS "n"
  FROM "y" AS "a"
  UNION ALL
  SELECT "a"."k" AS "k", "a"."n" AS "n"
  FROM "z" AS "a";
CREATE TABLE "R$2" AS
  SELECT "a"."k" AS "k", "a"."n" AS "n"
  FROM "R$1" AS "a"
  GROUP BY "a"."k", "a"."n";
CREATE TABLE "R" AS
  SELECT "a$0"."k" AS "k", "a$0"."n" AS "n", "a$1"."u" AS "u", "a$2"."v" AS "v", "a$3"."w" AS "w",
    "a$1"."s" AS "s"
  FROM "R$2" AS "a$0"
  LEFT JOIN "x" AS "a$1" ON "a$1"."k" = "a$0"."k" AND "a$1"."n" = "a$0"."n"
  LEFT JOIN "y" AS "a$2" ON "a$2"."k" = "a$0"."k" AND "a$2"."n" = "a$0"."n"
  LEFT JOIN "z" AS "a$3" ON "a$3"."k" = "a$0"."k" AND "a$3"."n" = "a$0"."n";
EXPORT "R" ORDER BY "k", "n";
