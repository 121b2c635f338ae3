SET SCALE 2 ROUNDING HALF_UP;
INPUT "T" ("id" INTEGER, "k" INTEGER, "v" INTEGER) KEY ("id");
INPUT "S" ("id" INTEGER, "k" INTEGER, "w" TEXT) KEY ("id");
CREATE TABLE "U" AS
  SELECT "t"."id" AS "a", "u"."id" AS "b",
    EXISTS (SELECT 1 FROM "S" AS "s" WHERE "s"."k" = "t"."k" AND "s"."id" = "t"."id") AS "c",
    EXISTS (SELECT 1 FROM "S" AS "s" WHERE "s"."k" = "u"."k" AND "s"."id" = "u"."id") AS "d",
    EXISTS (SELECT 1 FROM "S" AS "s" WHERE "s"."k" = "t"."k" AND "s"."id" = "u"."id") AS "e"
  FROM "T" AS "t"
  CROSS JOIN "T" AS "u"
  WHERE "t"."id" > 1 AND "t"."id" < 4 AND "u"."id" < 3;
EXPORT "U";
