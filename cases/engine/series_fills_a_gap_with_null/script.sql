SET SCALE 0 ROUNDING DOWN;
INPUT "T" ("g" TEXT, "p" PERIOD, "v" INTEGER NOT NULL) KEY ("g", "p");
CREATE TABLE "U" AS
  SELECT "s"."g" AS "g", "s"."p" AS "p", "t"."v" AS "v"
  FROM SERIES "T" ON "p" BY ("g") SINGLE AS "s"
  LEFT JOIN "T" AS "t" ON "s"."g" = "t"."g" AND "s"."p" = "t"."p";
EXPORT "U" ORDER BY "g", "p";
