SET SCALE 2 ROUNDING HALF_UP;
INPUT "T" ("id" INTEGER, "k" INTEGER, "v" INTEGER) KEY ("id");
INPUT "S" ("id" INTEGER, "k" INTEGER, "w" TEXT) KEY ("id");
CREATE TABLE "U" AS
  SELECT "t"."id" AS "a", "s"."id" AS "b", "x"."id" AS "c"
  FROM "T" AS "t"
  INNER JOIN "S" AS "s" ON "t"."k" = "s"."k"
  LEFT JOIN "T" AS "x" ON "x"."k" = "s"."k" AND "x"."v" > 0
  WHERE "t"."id" + "s"."id" > 3 AND "s"."w" <> 'x';
EXPORT "U";
